:- module(components, [components/2]).

/** <module> Strongly connected components */

:- use_module(library(assoc)).
:- use_module(library(lists)).

%!  components(+Graph, -Components) is det.
%
%   Graph is an assoc of each key's list of successors, which are keys too,
%   or else are left out. Components is a list of lists of keys, a component
%   before those that reach it (Tarjan).

components(Graph, Components) :-
    assoc_to_keys(Graph, Keys),
    empty_assoc(Numbers),
    foldl(visit(Graph), Keys, state(0, Numbers, [], []), state(_, _, _, Reversed)),
    reverse(Reversed, Components).

%   state(Next, Numbers, Stack, Components): Numbers has number(N) for a key on
%   the stack and `done` for one in a component.

visit(Graph, Key, State0, State) :-
    State0 = state(_, Numbers, _, _),
    (   get_assoc(Key, Numbers, _)
    ->  State = State0
    ;   connect(Key, Graph, _, State0, State)
    ).

connect(Key, Graph, Low, state(N, Numbers0, Stack, Components), State) :-
    put_assoc(Key, Numbers0, number(N), Numbers),
    Next is N + 1,
    get_assoc(Key, Graph, Successors),
    successors(Successors, Graph, N, Low, state(Next, Numbers, [Key|Stack], Components), State1),
    (   Low == N
    ->  State1 = state(Next1, Numbers1, Stack1, Components1),
        popped(Key, Stack1, Component, Rest),
        foldl(finish, Component, Numbers1, Numbers2),
        State = state(Next1, Numbers2, Rest, [Component|Components1])
    ;   State = State1
    ).

successors([], _, Low, Low, State, State).
successors([Key|Keys], Graph, Low0, Low, State0, State) :-
    State0 = state(_, Numbers, _, _),
    (   \+ get_assoc(Key, Graph, _)
    ->  successors(Keys, Graph, Low0, Low, State0, State)
    ;   get_assoc(Key, Numbers, Number)
    ->  (   Number = number(N)
        ->  Low1 is min(Low0, N)
        ;   Low1 = Low0
        ),
        successors(Keys, Graph, Low1, Low, State0, State)
    ;   connect(Key, Graph, Below, State0, State1),
        Low1 is min(Low0, Below),
        successors(Keys, Graph, Low1, Low, State1, State)
    ).

popped(Key, [Top|Stack], [Top|Component], Rest) :-
    (   Top == Key
    ->  Component = [], Rest = Stack
    ;   popped(Key, Stack, Component, Rest)
    ).

finish(Key, Numbers0, Numbers) :-
    put_assoc(Key, Numbers0, done, Numbers).
