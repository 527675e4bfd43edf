% Facts alone: every query ends.
%
% Modes:
% edge/2    [[]]
% colour/2  [[]]
% node/1    [[]]

edge(a,b).
edge(b,c).
edge(c,a).
colour(a,red).
colour(b,green).
node(X).
