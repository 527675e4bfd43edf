% Edges, paths of two edges, and paths of any length. reach ends here, since the graph has no cycle,
% but no size shows that.
%
% Modes:
% edge/2   [[]]
% path2/2  [[]]
% reach/2  []

edge(a, b).
edge(b, c).

path2(X, Z) :- edge(X, Y), edge(Y, Z).

reach(X, Y) :- edge(X, Y).
reach(X, Z) :- edge(X, Y), reach(Y, Z).
