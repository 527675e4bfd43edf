% A transitive closure that calls itself first. tc has no mode: it calls itself with its own first
% argument before it looks for an edge, so no query of it ends.
%
% Modes:
% tc/2    []
% edge/2  [[]]

tc(X,Y) :- edge(X,Y).
tc(X,Y) :- tc(X,Z), edge(Z,Y).
edge(a,b).
edge(b,c).
