% Reverses a list by an accumulator. The list in the first argument gets shorter, and the
% accumulator may grow.
%
% Modes:
% reverse/2  [[1]]
% rev/3      [[1]]

reverse(L,R) :- rev(L,[],R).
rev([],R,R).
rev([H|T],A,R) :- rev(T,[H|A],R).
