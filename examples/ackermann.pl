% Ackermann's function. It ends if both numbers are known, but no single weighted sum of its
% arguments falls at every call, so cti infer finds no mode. cti lex compares two sums, one after
% the other.
%
% Modes, with cti lex:
% ack/3  [[1,2]]

ack(0,N,s(N)).
ack(s(M),0,R) :- ack(M,s(0),R).
ack(s(M),s(N),R) :- ack(s(M),N,S), ack(M,S,R).
