% An integer has the size 0, so a counter alone gives no mode; a list beside it does.
%
% Modes:
% down/1     []
% down_by/2  [[1]]

down(0).
down(N) :- N > 0, M is N-1, down(M).
down_by(_,0).
down_by([_|Fuel],N) :- N > 0, M is N-1, down_by(Fuel,M).
