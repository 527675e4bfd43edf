% Addition, multiplication and factorials of the numbers 0, s(0), s(s(0)) and so on. times needs
% both factors, since otherwise plus would get an unknown number.
%
% Modes:
% plus/3   [[1],[3]]
% times/3  [[1,2]]
% fact/2   [[1]]

plus(0,Y,Y).
plus(s(X),Y,s(Z)) :- plus(X,Y,Z).
times(0,_,0).
times(s(X),Y,Z) :- times(X,Y,W), plus(Y,W,Z).
fact(0,s(0)).
fact(s(N),F) :- fact(N,G), times(s(N),G,F).
