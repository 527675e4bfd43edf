:- module(pure_program,
          [ covering_program/2,         % +Source, -Program
            write_program/3,            % +Program, +File, -Names
            pure_query/4,               % +Names, +Key, +Args, -Text
            program_graph/2,            % +Program, -Graph
            named_key/2                 % +Key, -Named
          ]).

/** <module> The pure program that covers a real file

covering_program/2 follows the calls of a file's predicates and makes the
clauses that cti reads. A program is a list of predicate(Key, Clauses, Notes)
where

  - each clause is clause(Args, Goals, Line), at most 12 arguments and 48
    variables, Goals a list of `A = B` and call(Key, Args);
  - Notes are note(Line, Doubt).

Disjunctions, and what is too much for one clause, become predicates with
keys part(Key, Number).
*/

:- use_module(library(apply)).
:- use_module(library(assoc)).
:- use_module(library(lists)).
:- use_module(library(occurs)).
:- use_module(library(pairs)).
:- use_module(library(yall)).
:- use_module(doubtful_libraries).
:- use_module(real_goals).
:- use_module(real_modules, [is_defined_in/2, root_source/2, start_project/0]).

most_arguments(12).
most_variables(48).
most_shared(36).
most_distributed(128).
most_other_clauses(4000).

%!  covering_program(+Project:dict, -Program) is det.

covering_program(Project, Program) :-
    start_project,
    maplist(source_keys, Project.sources, Lists),
    append(Lists, Keys1),
    sort(Keys1, Keys2),
    (   root_source(Project, Source),
        Source.directives \== []
    ->  Keys = [directives|Keys2]
    ;   Keys = Keys2
    ),
    covered_keys(Keys, Project, Program0),
    with_cyclic(Program0, Program1),
    without_doubtful(Project, Program1, Program).

source_keys(Source, Keys) :-
    assoc_to_keys(Source.clauses, Keys0),
    append([Keys0, Source.dynamic, Source.multifile], Keys).

%   Where get_assoc/3 is called, it is done again with terms as that needs them.

covered_keys(Keys, Project, Program) :-
    empty_assoc(Seen),
    start_goals(names),
    cover(Keys, Project, Seen, 0, Program0, []),
    (   memberchk(predicate(prelude(get_assoc/3), _, _), Program0)
    ->  start_goals(arities),
        cover(Keys, Project, Seen, 0, Program, [])
    ;   Program = Program0
    ).

%   cover(+Keys, +Project, +Seen, +Count, -Program, ?Rest): Count clauses of
%   files that were not asked for are there. Beyond most_other_clauses no more
%   are read.

cover([], _, _, _, Program, Program).
cover([Key|Keys], Project, Seen0, Count0, Program0, Program) :-
    (   get_assoc(Key, Seen0, _)
    ->  cover(Keys, Project, Seen0, Count0, Program0, Program)
    ;   put_assoc(Key, Seen0, seen, Seen),
        (   is_own_key(Key, Project)
        ->  covered(Key, Project, Predicates, Needs),
            Count = Count0
        ;   most_other_clauses(Most),
            Count0 < Most
        ->  covered(Key, Project, Predicates, Needs),
            foldl(counted, Predicates, Count0, Count)
        ;   left_out(Key, Predicates),
            Needs = [],
            Count = Count0
        ),
        append(Predicates, Program1, Program0),
        append(Keys, Needs, More),
        cover(More, Project, Seen, Count, Program1, Program)
    ).

counted(predicate(_, Clauses, _), Count0, Count) :-
    length(Clauses, Length),
    Count is Count0 + Length.

is_own_key(Key, Project) :-
    named_key(Key, Named),
    (   Named == file
    ->  true
    ;   Named = system:_
    ->  true
    ;   is_defined_in(Project, Named)
    ).

covered(Key, Project, [predicate(Key, Clauses, Notes)|Parts], Needs) :-
    predicate_clauses(Project, Key, Pure0, Found),
    findall(Need, member(need(Need), Found), Needs0),
    sort(Needs0, Needs),
    findall(note(Line, Doubt), member(note(Line, Doubt), Found), Notes0),
    sort(Notes0, Notes),
    distinct_clauses(Pure0, Pure),
    phrase(bounded(Pure, Key, 1, Clauses), Parts).

left_out(Key, [predicate(Key, [clause(Args, [], 0)], [note(0, left_out)])]) :-
    (   Key = special(_, Closures)
    ->  closures_arity(Closures, Arity)
    ;   Key = _:_/Arity
    ),
    length(Args0, Arity),
    packed(Args0, Args).

%   closures_arity(+Closures, -Arity): of the predicate with these closures, the
%   other arguments and the closures' variables.

closures_arity(Closures, Arity) :-
    include(==(-), Closures, Others),
    findall(N, ( sub_term(Sub, Closures), nonvar(Sub), Sub = '$VAR'(N) ), Ns0),
    sort(Ns0, Ns),
    length(Others, OtherCount),
    length(Ns, Count),
    Arity is OtherCount + Count.

%   with_cyclic(+Program0, -Program): with a note for each clause whose goals
%   are past by a cyclic term alone. cti never gets past them.

with_cyclic(Program0, Program) :-
    findall(Key-Clauses, member(predicate(Key, Clauses, _), Program0), Pairs),
    list_to_assoc(Pairs, ByKey),
    maplist(cyclic_noted(ByKey), Program0, Program).

cyclic_noted(ByKey, predicate(Key, Clauses, Notes0), predicate(Key, Clauses, Notes)) :-
    findall(note(Line, cyclic),
            ( member(Clause, Clauses), needs_cyclic(Clause, ByKey), Clause = clause(_, _, Line) ),
            Cyclic),
    (   Cyclic == []
    ->  Notes = Notes0
    ;   append(Notes0, Cyclic, Notes1),
        sort(Notes1, Notes)
    ).

needs_cyclic(clause(_, Goals, _), ByKey) :-
    Goals \== [],
    \+ may_pass(Goals, ByKey, occurs_check),
    may_pass(Goals, ByKey, rational_trees).

%   may_pass(+Goals, +ByKey, +Unification): the unifications of the Goals, with
%   those of the clauses that they call directly, have a common solution. Where
%   the search is long it is said to have one.

may_pass(Goals, ByKey, Unification) :-
    call_with_inference_limit(\+ \+ passed(Goals, ByKey, Unification, 2), 100000, _).

passed([], _, _, _).
passed([Goal|Goals], ByKey, Unification, Depth) :-
    passed_goal(Goal, ByKey, Unification, Depth),
    passed(Goals, ByKey, Unification, Depth).

passed_goal(A = B, _, Unification, _) :-
    unified(Unification, A, B).
passed_goal(call(Key, Args), ByKey, Unification, Depth) :-
    (   Key == fail
    ->  fail
    ;   Depth =:= 0
    ->  true
    ;   Next is Depth - 1,
        get_assoc(Key, ByKey, Clauses),
        member(Clause, Clauses),
        copy_term(Clause, clause(Args1, Goals, _)),
        unified(Unification, Args, Args1),
        passed(Goals, ByKey, Unification, Next)
    ).

unified(occurs_check, A, B) :-
    unify_with_occurs_check(A, B).
unified(rational_trees, A, A).

%   Clauses that are variants of each other are one. Facts are many where a
%   file is a table.

distinct_clauses(Clauses, Distinct) :-
    empty_assoc(Seen),
    distinct_clauses(Clauses, Seen, Distinct).

distinct_clauses([], _, []).
distinct_clauses([Clause|Clauses], Seen0, Distinct) :-
    Clause = pure(Args, Body, _),
    copy_term(Args-Body, Numbered),
    numbervars(Numbered, 0, _),
    (   get_assoc(Numbered, Seen0, _)
    ->  distinct_clauses(Clauses, Seen0, Distinct)
    ;   put_assoc(Numbered, Seen0, seen, Seen),
        Distinct = [Clause|Rest],
        distinct_clauses(Clauses, Seen, Rest)
    ).


%   bounded(+Pure, +Key, +Number, -Clauses)// makes clauses within the limits,
%   and emits the predicates of their parts, which are numbered from Number.

bounded(Pure, Key, Number, Clauses) -->
    bounded(Pure, Key, Number, _, Clauses).

bounded([], _, Number, Number, []) --> [].
bounded([Pure|Pures], Key, Number0, Number, Clauses) -->
    { most_distributed(Most),
      distributed(Pure, Most, Distributed, []) },
    bounded_clauses(Distributed, Key, Number0, Number1, Clauses, More),
    bounded(Pures, Key, Number1, Number, More).

%   distributed(+Pure, +Most, -Distributed, ?Rest): at most so many clauses.

distributed(pure(Args, Body, Line), Most, Distributed, Rest) :-
    (   wide_disjunction(Args, Body, Bodies),
        length(Bodies, Count),
        Count =< Most
    ->  Each is Most // Count,
        findall(pure(Args, One, Line), member(One, Bodies), Pures),
        foldl({Each}/[Pure, D0, D]>>distributed(Pure, Each, D0, D), Pures, Distributed, Rest)
    ;   Distributed = [pure(Args, Body, Line)|Rest]
    ).

bounded_clauses([], _, Number, Number, Clauses, Clauses) --> [].
bounded_clauses([pure(Args0, Body, Line)|Pure], Key, Number0, Number, [Clause|Clauses], Rest) -->
    { packed(Args0, Args) },
    flat(Body, Args, Key, Line, Number0, Number1, Goals),
    short(Args, Goals, Key, Line, Number1, Number2, Clause),
    bounded_clauses(Pure, Key, Number2, Number, Clauses, Rest).

%   wide_disjunction(+Args, +Body, -Bodies): a disjunction that shares more
%   than 12 variables with the rest is distributed, where it is among the
%   goals of the clause and has at most eight branches: Bodies has the body
%   with each of its branches.

wide_disjunction(Args, Body, Bodies) :-
    conjuncts(Body, Goals, []),
    append(Before, [Disjunction|After], Goals),
    Disjunction = (_ ; _),
    term_variables(Disjunction, Inside),
    term_variables(Args-Before-After, Outside),
    both_have(Inside, Outside, Shared),
    most_arguments(Most),
    length(Shared, N),
    N > Most,
    alternatives(Disjunction, Branches),
    length(Branches, Count),
    Count =< 8,
    !,
    with_branches(Branches, Before, After, Bodies).

with_branches([], _, _, []).
with_branches([Branch|Branches], Before, After, [Body|Bodies]) :-
    append(Before, [Branch|After], Goals),
    conjunction(Goals, Body),
    with_branches(Branches, Before, After, Bodies).

conjuncts((A, B), Goals, Rest) :-
    !,
    conjuncts(A, Goals, More),
    conjuncts(B, More, Rest).
conjuncts(Goal, [Goal|Rest], Rest).

conjunction([Goal], Goal) :- !.
conjunction([Goal|Goals], (Goal, Body)) :-
    conjunction(Goals, Body).

%   From the 12th on, arguments are put together in one term.

packed(Args, Packed) :-
    most_arguments(Most),
    length(Args, Arity),
    (   Arity =< Most
    ->  Packed = Args
    ;   Kept is Most - 1,
        length(First, Kept),
        append(First, Others, Args),
        Term =.. [arguments|Others],
        append(First, [Term], Packed)
    ).

%   flat(+Body, +Outside, +Key, +Line, +Number0, -Number, -Goals)//: Outside
%   has the variables that occur elsewhere in the clause.

flat((A, B), Outside, Key, Line, Number0, Number, Goals) -->
    !,
    flat(A, Outside-B, Key, Line, Number0, Number1, GoalsA),
    flat(B, Outside-A, Key, Line, Number1, Number, GoalsB),
    { append(GoalsA, GoalsB, Goals) }.
flat((A ; B), Outside, Key, Line, Number0, Number, [call(Part, Args)]) -->
    !,
    { Part = part(Key, Number0),
      Number1 is Number0 + 1,
      shared(A-B, Outside, Shared),
      packed(Shared, Args),
      alternatives((A ; B), Bodies),
      findall(pure(Shared, Body, Line), member(Body, Bodies), Pure0),
      distinct_clauses(Pure0, Pure) },
    bounded(Pure, Key, Number1, Number, Clauses),
    [predicate(Part, Clauses, [])].
flat(true, _, _, _, Number, Number, []) --> !.
flat(fail, _, _, _, Number, Number, [call(fail, [])]) --> !.
flat(A = B, _, _, _, Number, Number, [A = B]) --> !.
flat(call(Key, Args0), _, _, _, Number, Number, [call(Key, Args)]) -->
    { packed(Args0, Args) }.

alternatives(Body, Bodies) :-
    (   Body = (A ; B)
    ->  alternatives(A, As),
        alternatives(B, Bs),
        append(As, Bs, Bodies)
    ;   Bodies = [Body]
    ).

%   At most 36 variables are shared with a part; the part has new ones in the
%   place of others, which covers more.

shared(Inside, Outside, Shared) :-
    term_variables(Inside, VsInside),
    term_variables(Outside, VsOutside),
    both_have(VsInside, VsOutside, Shared0),
    most_shared(Most),
    length(Shared0, N),
    (   N =< Most
    ->  Shared = Shared0
    ;   length(Shared, Most),
        append(Shared, _, Shared0)
    ).

both_have(As, Bs, Both) :-
    sort(Bs, Sorted),
    include({Sorted}/[V]>>( member(W, Sorted), V == W -> true ), As, Both).

%   short(+Args, +Goals, +Key, +Line, +Number0, -Number, -Clause)//: a clause
%   with too many variables goes on in a part, after as many goals as fit.

short(Args, Goals, _, Line, Number, Number, clause(Args, Goals, Line)) -->
    { few_variables(Args-Goals) },
    !.
short(Args0, Goals0, Key, Line, Number0, Number, clause(Args, Goals, Line)) -->
    { widened_arguments(Args0, Args1),
      maplist(widened_goal, Goals0, Goals1),
      fitting(Goals1, Args1, Now, Later) },
    (   { Later == [] }
    ->  { Args = Args1, Goals = Now, Number = Number0 }
    ;   { Args = Args1,
          Part = part(Key, Number0),
          Number1 is Number0 + 1,
          shared(Later, Args1-Now, Shared),
          packed(Shared, PartArgs),
          append(Now, [call(Part, PartArgs)], Goals) },
        short(PartArgs, Later, Key, Line, Number1, Number, Clause),
        [predicate(Part, [Clause], [])]
    ).

few_variables(Term) :-
    term_variables(Term, Variables),
    length(Variables, N),
    most_variables(Most),
    N =< Most.

fitting([], _, [], []).
fitting([Goal|Goals], Before, Now, Later) :-
    (   few_variables(Before-Goal)
    ->  Now = [Goal|Now1],
        fitting(Goals, Before-Goal, Now1, Later)
    ;   Now = [],
        Later = [Goal|Goals]
    ).

%   What has more variables than a clause can have beside others is a variable.

widened_arguments(Args0, Args) :-
    (   few_shared(Args0)
    ->  Args = Args0
    ;   maplist(widened, Args0, Args)
    ).

widened(Term0, Term) :-
    term_variables(Term0, Variables),
    (   Variables = [_, _, _, _|_]
    ->  true
    ;   Term = Term0
    ).

widened_goal(call(Key, Args0), call(Key, Args)) :-
    widened_arguments(Args0, Args).
widened_goal(A = B, Goal) :-
    (   few_shared(A-B)
    ->  Goal = (A = B)
    ;   Goal = ([] = [])
    ).

few_shared(Term) :-
    term_variables(Term, Variables),
    length(Variables, N),
    most_shared(Most),
    N =< Most.


%!  write_program(+Program, +File, -Names) is det.
%
%   Writes Program as a text that cti reads. Names is a list of
%   Key-Name/Arity, with the names and the arities that the text has.

write_program(Program, File, Names) :-
    foldl(named, Program, [], Reversed),
    reverse(Reversed, Names),
    list_to_assoc(Names, ByKey),
    setup_call_cleanup(open(File, write, Out, [encoding(utf8)]),
                       forall(member(predicate(Key, Clauses, _), Program),
                              forall(member(Clause, Clauses), write_clause(Out, ByKey, Key, Clause))),
                       close(Out)).

%!  pure_query(+Names, +Key, +Args, -Text:string) is det.
%
%   Text is the query of Key with the arguments Args, as a goal of the pure
%   program.

pure_query(Names, Key, Args, Text) :-
    list_to_assoc(Names, ByKey),
    maplist(pure_term, Args, Pure),
    copy_term(Pure, Numbered),
    numbervars(Numbered, 0, _, [singletons(true)]),
    with_output_to(string(Text), write_atom(current_output, ByKey, Key, Numbered)).

named(predicate(Key, Clauses, _), Names, [Key-Name/Arity|Names]) :-
    key_name(Key, Names, Name),
    key_arity(Key, Clauses, Arity).

key_name(directives, _, directives) :- !.
key_name(prelude(Name/_), _, Pure) :-
    !,
    atom_concat('prelude ', Name, Pure).
key_name(part(_, _), Names, Pure) :-
    !,
    numbered('part ', Names, Pure).
key_name(special(_:Name/_, _), Names, Pure) :-
    !,
    atomic_list_concat(['special ', Name, ' '], Prefix),
    numbered(Prefix, Names, Pure).
key_name(Module:Name/_, _, Pure) :-
    atomic_list_concat([Module, ':', Name], Pure).

numbered(Prefix, Names, Name) :-
    length(Names, Number),
    atom_concat(Prefix, Number, Name).

key_arity(_, [clause(Args, _, _)|_], Arity) :-
    !,
    length(Args, Arity).
key_arity(_:_/Arity0, [], Arity) :-
    !,
    most_arguments(Most),
    Arity is min(Arity0, Most).
key_arity(special(_, Closures), [], Arity) :-
    closures_arity(Closures, Arity0),
    most_arguments(Most),
    Arity is min(Arity0, Most).

write_clause(Out, Names, Key, clause(Args, Goals, _)) :-
    \+ \+ ( numbervars(Args-Goals, 0, _, [singletons(true)]),
            write_atom(Out, Names, Key, Args),
            write_goals(Goals, Out, Names),
            format(Out, '.~n', []) ).

write_goals([], _, _).
write_goals([Goal|Goals], Out, Names) :-
    format(Out, ' :- ', []),
    write_goal(Goal, Out, Names),
    forall(member(Other, Goals),
           ( format(Out, ', ', []), write_goal(Other, Out, Names) )).

write_goal(A = B, Out, _) :-
    write_pure(Out, A),
    format(Out, ' = ', []),
    write_pure(Out, B).
write_goal(call(fail, []), Out, _) :-
    format(Out, 'fail', []).
write_goal(call(Key, Args), Out, Names) :-
    Key \== fail,
    write_atom(Out, Names, Key, Args).

write_atom(Out, Names, Key, Args) :-
    get_assoc(Key, Names, Name/_),
    write_name(Out, Name),
    write_arguments(Args, Out).

write_arguments([], _).
write_arguments([Arg|Args], Out) :-
    format(Out, '(', []),
    write_pure(Out, Arg),
    forall(member(Other, Args),
           ( format(Out, ',', []), write_pure(Out, Other) )),
    format(Out, ')', []).

write_pure(Out, '$VAR'(N)) :-
    !,
    (   N == '_'
    ->  format(Out, '_', [])
    ;   format(Out, 'X~d', [N])
    ).
write_pure(Out, [H|T]) :-
    !,
    format(Out, '[', []),
    write_pure(Out, H),
    write_tail(T, Out).
write_pure(Out, Term) :-
    atom(Term),
    !,
    write_name(Out, Term).
write_pure(Out, []) :-
    !,
    format(Out, '[]', []).
write_pure(Out, Term) :-
    compound_name_arguments(Term, Name, Args),
    write_name(Out, Name),
    write_arguments(Args, Out).

write_tail([], Out) :-
    !,
    format(Out, ']', []).
write_tail([H|T], Out) :-
    !,
    format(Out, ',', []),
    write_pure(Out, H),
    write_tail(T, Out).
write_tail(T, Out) :-
    format(Out, '|', []),
    write_pure(Out, T),
    format(Out, ']', []).

%   A name that is not plain stands in quotes. No plain name of a term is one
%   that cti keeps, since only predicates' names are kept, which have a colon.

write_name(Out, Name) :-
    atom_codes(Name, Codes),
    (   Codes = [First|Others],
        between(0'a, 0'z, First),
        forall(member(Code, Others), plain_code(Code))
    ->  format(Out, '~s', [Codes])
    ;   format(Out, '\'', []),
        forall(member(Code, Codes), write_code(Code, Out)),
        format(Out, '\'', [])
    ).

plain_code(Code) :-
    (   between(0'a, 0'z, Code)
    ;   between(0'A, 0'Z, Code)
    ;   between(0'0, 0'9, Code)
    ;   Code == 0'_
    ),
    !.

write_code(0'', Out) :-
    !,
    format(Out, '\\\'', []).
write_code(0'\\, Out) :-
    !,
    format(Out, '\\\\', []).
write_code(Code, Out) :-
    (   ( Code < 32 ; Code == 127 )
    ->  format(Out, '\\x~16r\\', [Code])
    ;   put_char_code(Out, Code)
    ).

put_char_code(Out, Code) :-
    char_code(Char, Code),
    put_char(Out, Char).


%!  program_graph(+Program, -Graph) is det.
%
%   Graph is an assoc of each key's list of calls.

program_graph(Program, Graph) :-
    findall(Key-Calls,
            ( member(predicate(Key, Clauses, _), Program),
              findall(Callee,
                      ( member(clause(_, Goals, _), Clauses), member(call(Callee, _), Goals), Callee \== fail ),
                      Calls0),
              sort(Calls0, Calls) ),
            Pairs),
    list_to_assoc(Pairs, Graph).

%!  named_key(+Key, -Named) is det.
%
%   Named is the predicate that Key is a part or a copy of.

named_key(part(Key, _), Named) :-
    !,
    named_key(Key, Named).
named_key(special(Key, _), Named) :-
    !,
    named_key(Key, Named).
named_key(prelude(PI), system:PI) :- !.
named_key(directives, file) :- !.
named_key(Key, Key).
