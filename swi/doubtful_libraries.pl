:- module(doubtful_libraries, [without_doubtful/3]).

/** <module> Library predicates of which too little is known

Where something is assumed of what a predicate of SWI-Prolog's library calls,
its clauses say less than one assumption: that it ends. So a call of it is as
one of a predicate that is not read. What a covering program has no room for
(see pure_program) is left out in the same way.
*/

:- use_module(library(apply)).
:- use_module(library(assoc)).
:- use_module(library(lists)).
:- use_module(components).
:- use_module(pure_program).
:- use_module(real_builtins, [is_read_library/1]).
:- use_module(real_modules).
:- use_module(real_source).

%!  without_doubtful(+Project:dict, +Program0, -Program) is det.
%
%   Program is Program0 without the predicates of the library of which
%   something is assumed, but for those of some modules that call the file's
%   goals (is_read_library/1), and with the assumption external(Predicate) at
%   each call of them.

without_doubtful(Project, Program0, Program) :-
    partition(is_of_roots(Project), Program0, Own, Others),
    doubtful_keys(Others, Doubtful),
    empty_assoc(Empty),
    foldl(left_out_key(Project), Doubtful, Empty, LeftOut),
    exclude(is_left_out(LeftOut), Program0, Kept0),
    maplist(without_calls(LeftOut), Kept0, Kept),
    reachable(Own, Kept, Program).

is_of_roots(Project, predicate(Key, _, _)) :-
    named_key(Key, Named),
    (   Named == file
    ->  true
    ;   is_defined_in(Project, Named)
    ).

is_left_out(LeftOut, predicate(Key, _, _)) :-
    get_assoc(Key, LeftOut, _).

%   doubtful_keys(+Program, -Keys): those with notes, and those that reach them.

doubtful_keys(Program, Keys) :-
    program_graph(Program, Graph),
    components(Graph, Components),
    findall(Key,
            ( member(predicate(Key, _, Notes), Program), member(note(_, Doubt), Notes), Doubt \= trusted(_) ),
            Noted0),
    sort(Noted0, Noted),
    findall(Key-true, member(Key, Noted), Pairs),
    list_to_assoc(Pairs, Doubtful0),
    foldl(doubtful_component(Graph), Components, Doubtful0, Doubtful),
    assoc_to_keys(Doubtful, Keys).

doubtful_component(Graph, Component, Doubtful0, Doubtful) :-
    (   member(Key, Component),
        (   get_assoc(Key, Doubtful0, _)
        ;   get_assoc(Key, Graph, Callees),
            member(Callee, Callees),
            get_assoc(Callee, Doubtful0, _)
        )
    ->  foldl(put_true, Component, Doubtful0, Doubtful)
    ;   Doubtful = Doubtful0
    ).

put_true(Key, Assoc0, Assoc) :-
    put_assoc(Key, Assoc0, true, Assoc).

left_out_key(Project, Key, LeftOut0, LeftOut) :-
    named_key(Key, Named),
    (   may_be_left_out(Project, Named)
    ->  put_true(Key, LeftOut0, LeftOut)
    ;   LeftOut = LeftOut0
    ).

may_be_left_out(Project, Module:PI) :-
    \+ is_read_library(Module),
    source_of(Project, Module:PI, Source),
    is_library_file(Source.path).

without_calls(LeftOut, predicate(Key, Clauses0, Notes0), predicate(Key, Clauses, Notes)) :-
    foldl(clause_without_calls(LeftOut), Clauses0, Clauses, Notes0, Notes1),
    sort(Notes1, Notes).

clause_without_calls(LeftOut, clause(Args, Goals0, Line), clause(Args, Goals, Line), Notes0, Notes) :-
    partition(calls_left_out(LeftOut), Goals0, Calls, Goals),
    foldl(noted_call(Line), Calls, Notes0, Notes).

noted_call(Line, call(Key, _), Notes, [note(Line, external(Named))|Notes]) :-
    named_key(Key, Named).

calls_left_out(LeftOut, call(Key, _)) :-
    get_assoc(Key, LeftOut, _).

%   reachable(+Own, +Kept, -Program): what the predicates Own still call. A copy
%   or a part of one of them may be called no more.

reachable(Own, Kept, Program) :-
    program_graph(Kept, Graph),
    findall(Key, ( member(predicate(Key, _, _), Own), \+ memberchk(Key, [special(_, _), part(_, _)]) ), Keys),
    empty_assoc(Empty),
    reached(Keys, Graph, Empty, Reached),
    include(is_reached(Reached), Kept, Program).

is_reached(Reached, predicate(Key, _, _)) :-
    get_assoc(Key, Reached, _).

reached([], _, Reached, Reached).
reached([Key|Keys], Graph, Reached0, Reached) :-
    (   get_assoc(Key, Reached0, _)
    ->  reached(Keys, Graph, Reached0, Reached)
    ;   put_assoc(Key, Reached0, true, Reached1),
        (   get_assoc(Key, Graph, Callees)
        ->  append(Callees, Keys, More)
        ;   More = Keys
        ),
        reached(More, Graph, Reached1, Reached)
    ).
