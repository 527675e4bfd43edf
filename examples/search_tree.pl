% Search trees of integers.
%
% Modes:
% insert/3  [[2],[3]]
% has/2     [[2]]
% height/2  [[1]]
% higher/3  [[]]

insert(X,nil,node(nil,X,nil)).
insert(X,node(L,Y,R),node(M,Y,R)) :- X < Y, insert(X,L,M).
insert(X,node(L,Y,R),node(L,Y,M)) :- X > Y, insert(X,R,M).
insert(X,node(L,X,R),node(L,X,R)).
has(X,node(L,Y,_)) :- X < Y, has(X,L).
has(X,node(_,X,_)).
has(X,node(_,Y,R)) :- X > Y, has(X,R).
height(nil,0).
height(node(L,_,R),H) :- height(L,A), height(R,B), higher(A,B,C), H is C+1.
higher(A,B,A) :- A >= B.
higher(A,B,B) :- A < B.
