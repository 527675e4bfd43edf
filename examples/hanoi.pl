% The towers of Hanoi, with the list of moves. The pegs have to be known too: they are in the list
% of moves, and app ends if that list is ground.
%
% Modes:
% hanoi/5  [[1,2,3,4]]
% app/3    [[1],[3]]

hanoi(0,_,_,_,[]).
hanoi(s(N),A,B,C,M) :-
    hanoi(N,A,C,B,L), hanoi(N,C,B,A,R), app(L,[A-B|R],M).
app([],L,L).
app([H|T],L,[H|R]) :- app(T,L,R).
