% Paths in a graph that has cycles. The third argument lists the nodes that may still be visited,
% and gets shorter with each step, so that it alone is enough.
%
% Modes:
% path/3  [[3]]
% edge/2  [[]]
% take/3  [[2],[3]]

path(X,X,_).
path(X,Y,Left) :- edge(X,Z), take(Z,Left,Rest), path(Z,Y,Rest).
take(X,[X|T],T).
take(X,[H|T],[H|R]) :- take(X,T,R).
edge(a,b).
edge(b,c).
edge(c,a).
