% Merge sort of the numbers 0, s(0), s(s(0)) and so on. The head takes two elements off the list
% before split, so that each half with one of them is still smaller than the whole.
%
% Modes:
% msort/2  [[1]]
% split/3  [[1],[2],[3]]
% merge/3  [[3],[1,2]]
% leq/2    [[1],[2]]
% less/2   [[1],[2]]

msort([],[]).
msort([X],[X]).
msort([X,Y|T],S) :-
    split(T,L,G), msort([X|L],A), msort([Y|G],B), merge(A,B,S).
split([],[],[]).
split([X],[X],[]).
split([X,Y|T],[X|L],[Y|G]) :- split(T,L,G).
merge([],L,L).
merge([X|T],[],[X|T]).
merge([X|T],[Y|U],[X|R]) :- leq(X,Y), merge(T,[Y|U],R).
merge([X|T],[Y|U],[Y|R]) :- less(Y,X), merge([X|T],U,R).
leq(0,_).
leq(s(X),s(Y)) :- leq(X,Y).
less(0,s(_)).
less(s(X),s(Y)) :- less(X,Y).
