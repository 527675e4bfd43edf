% Quicksort over the numbers 0, s(0), s(s(0)) and so on. The size relations of part say that neither
% part is larger than the list that it splits.
%
% Modes:
% qsort/2  [[1]]
% part/4   [[1],[3,4]]
% app/3    [[1],[3]]
% leq/2    [[1],[2]]
% less/2   [[1],[2]]

qsort([],[]).
qsort([P|T],S) :-
    part(T,P,L,G), qsort(L,A), qsort(G,B), app(A,[P|B],S).
part([],_,[],[]).
part([X|T],P,[X|L],G) :- leq(X,P), part(T,P,L,G).
part([X|T],P,L,[X|G]) :- less(P,X), part(T,P,L,G).
leq(0,_).
leq(s(X),s(Y)) :- leq(X,Y).
less(0,s(_)).
less(s(X),s(Y)) :- less(X,Y).
app([],L,L).
app([H|T],L,[H|R]) :- app(T,L,R).
