% Insertion into a search tree, and the list of its elements. insert ends if either tree is known:
% it inserts into the first, or takes out of the second.
%
% Modes:
% insert/3   [[2],[3]]
% less/2     [[1],[2]]
% inorder/2  [[1]]
% app/3      [[1],[3]]

insert(X,leaf,node(leaf,X,leaf)).
insert(X,node(L,Y,R),node(M,Y,R)) :- less(X,Y), insert(X,L,M).
insert(X,node(L,Y,R),node(L,Y,M)) :- less(Y,X), insert(X,R,M).
inorder(leaf,[]).
inorder(node(L,X,R),S) :- inorder(L,A), inorder(R,B), app(A,[X|B],S).
less(0,s(_)).
less(s(X),s(Y)) :- less(X,Y).
app([],L,L).
app([H|T],L,[H|R]) :- app(T,L,R).
