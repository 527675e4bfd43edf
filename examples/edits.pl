% A list library, as it grows.
add(app([],L,L)).
modes(app/3).
add((app([H|T],L,[H|R]) :- app(T,L,R))).
modes(app/3).
add((rev([H|T],R) :- rev(T,S), app(S,[H],R))).
modes(rev/2).
del(2).
modes(app/3).
