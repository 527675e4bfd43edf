% Permutations of a list. That select leaves a shorter list is a size relation; without it perm
% would have no mode.
%
% Modes:
% perm/2    [[1]]
% select/3  [[2],[3]]

perm([],[]).
perm(L,[H|T]) :- select(H,L,R), perm(R,T).
select(X,[X|T],T).
select(X,[H|T],[H|R]) :- select(X,T,R).
