% Insertion sort of integers.
%
% Modes:
% sort/2    [[1]]
% insert/3  [[2],[3]]

sort([],[]).
sort([X|Xs],Ys) :- sort(Xs,Zs), insert(X,Zs,Ys).
insert(X,[],[X]).
insert(X,[Y|Ys],[X,Y|Ys]) :- X =< Y.
insert(X,[Y|Ys],[Y|Zs]) :- X > Y, insert(X,Ys,Zs).
