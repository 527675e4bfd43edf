% A machine with a stack, for sums and products: the program is a list, and gets smaller.
%
% Modes:
% calc/3  [[1]]

calc([],[X],X).
calc([num(N)|Is],St,X) :- calc(Is,[N|St],X).
calc([add|Is],[B,A|St],X) :- C is A+B, calc(Is,[C|St],X).
calc([mul|Is],[B,A|St],X) :- C is A*B, calc(Is,[C|St],X).
calc([neg|Is],[A|St],X) :- C is -A, calc(Is,[C|St],X).
