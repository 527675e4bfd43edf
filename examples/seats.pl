% Guests in a row of four seats. beside and member look down the row: it has to be a list of known
% length, but who sits where need not be known. So the modes are those of --norm list; by term size,
% the norm without the option, seats/1 has [[1]] only.
%
% Modes, with --norm list:
% seats/1   [[]]
% beside/3  [[3]]
% member/2  [[2]]
% next/3    [[3]]

seats(Row) :-
    Row = [_,_,_,_],
    beside(ann,bob,Row), beside(bob,cid,Row), member(dan,Row).
beside(X,Y,Row) :- next(X,Y,Row).
beside(X,Y,Row) :- next(Y,X,Row).
next(X,Y,[X,Y|_]).
next(X,Y,[_|T]) :- next(X,Y,T).
member(X,[X|_]).
member(X,[_|T]) :- member(X,T).
