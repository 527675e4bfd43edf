% Queens on a board, by permutations. perm gives a ground list, so that the checks in safe get the
% arguments that they need.
%
% Modes:
% queens/2  [[1]]
% perm/2    [[1]]
% safe/1    [[1]]
% select/3  [[2],[3]]
% away/3    [[1,3]]
% plus/3    [[1],[3]]
% other/2   [[1],[2]]

queens(L,Q) :- perm(L,Q), safe(Q).
perm([],[]).
perm(L,[H|T]) :- select(H,L,R), perm(R,T).
select(X,[X|T],T).
select(X,[H|T],[H|R]) :- select(X,T,R).
safe([]).
safe([Q|T]) :- away(Q,s(0),T), safe(T).
away(_,_,[]).
away(Q,D,[P|T]) :-
    plus(P,D,S), other(Q,S), plus(Q,D,U), other(P,U), away(Q,s(D),T).
other(0,s(_)).
other(s(_),0).
other(s(X),s(Y)) :- other(X,Y).
plus(0,Y,Y).
plus(s(X),Y,s(Z)) :- plus(X,Y,Z).
