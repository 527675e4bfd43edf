% A grammar of sums with brackets, over the list of tokens and what is left of it. That each rule
% leaves a shorter list, or one of the same length, is a size relation.
%
% Modes:
% expr/2    [[1]]
% factor/2  [[1]]
% rest/2    [[1]]

expr(S0,S) :- factor(S0,S1), rest(S1,S).
rest(S,S).
rest([+|S0],S) :- factor(S0,S1), rest(S1,S).
factor([x|S],S).
factor(['('|S0],S) :- expr(S0,[')'|S]).
