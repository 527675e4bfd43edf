% The sum and the greatest element of a list of integers.
%
% Modes:
% sum/2       [[1]]
% greatest/2  [[1]]

sum([],0).
sum([X|Xs],S) :- sum(Xs,T), S is T+X.
greatest([X],X).
greatest([X,Y|Xs],M) :- X >= Y, greatest([X|Xs],M).
greatest([X,Y|Xs],M) :- X < Y, greatest([Y|Xs],M).
