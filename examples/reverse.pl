% Reverses a list by appending. Only the first argument helps: if it is not known, rev calls itself
% with an unknown list for ever.
%
% Modes:
% rev/2  [[1]]
% app/3  [[1],[3]]

rev([],[]).
rev([H|T],R) :- rev(T,S), app(S,[H],R).
app([],L,L).
app([H|T],L,[H|R]) :- app(T,L,R).
