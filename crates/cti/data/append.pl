% Appends two lists, and splits one. The first list or the third is enough, since each call takes
% an element from both.
%
% Modes:
% app/3  [[1],[3]]

app([],L,L).
app([H|T],L,[H|R]) :- app(T,L,R).
