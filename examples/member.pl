% Elements and subsets of a list. member looks down the list, so the list has to be known, and
% subset needs both lists.
%
% Modes:
% member/2  [[2]]
% subset/2  [[1,2]]

member(X,[X|_]).
member(X,[_|T]) :- member(X,T).
subset([],_).
subset([H|T],L) :- member(H,L), subset(T,L).
