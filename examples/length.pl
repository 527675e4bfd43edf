% The length of a list, and the element at a place. Integers have the size 0; what gets smaller is
% the list.
%
% Modes:
% len/2  [[1]]
% nth/3  [[2]]

len([],0).
len([_|T],N) :- len(T,M), N is M+1.

nth(1,[X|_],X).
nth(N,[_|T],X) :- N > 1, M is N-1, nth(M,T,X).
