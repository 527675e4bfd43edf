:- module(asking,
          [ query_pattern/4,            % +Text, -Module, -PI, -Pattern
            reply/5,                    % +Key, +Pattern, +Known, +Predicate, -Reply
            meets/2,                    % +Pattern, +Mode
            pattern_need/4,             % +Key, +Pattern, +Reasoning, -Need
            lacking_calls/2             % +Known, -Lacking
          ]).

/** <module> Does a query of this pattern end?

A pattern has for each argument

  - b: it is ground
  - l: it is a list whose length is known, with any elements, or another term
    that is no variable
  - f: it may be anything
*/

:- use_module(library(apply)).
:- use_module(library(assoc)).
:- use_module(library(lists)).
:- use_module(answer_text).
:- use_module(cti).
:- use_module(places).
:- use_module(pure_program).
:- use_module(real_builtins, [is_protected/1]).
:- use_module(real_source).
:- use_module(reasons).

%!  query_pattern(+Text, -Module, -PI, -Pattern) is semidet.
%
%   Text is as `app(b,f,f)`, or `m:app(b,f,f)`. Without a module, Module is
%   unbound.

query_pattern(Text, Module, Name/Arity, Pattern) :-
    catch(term_to_atom(Term0, Text), _, fail),
    ground(Term0),
    (   Term0 = Module:Term
    ->  atom(Module)
    ;   Term = Term0
    ),
    callable(Term),
    Term =.. [Name|Pattern],
    length(Pattern, Arity),
    forall(member(Letter, Pattern), memberchk(Letter, [b, l, f])).

%!  meets(+Pattern, +Mode) is semidet.

meets(Pattern, mode{arguments:Arguments, by:By}) :-
    forall(( member(Argument, Arguments), nth1(Argument, Pattern, Letter) ),
           is_known(By, Letter)).

is_known(ground, b).
is_known(length, b).
is_known(length, l).

%!  reply(+Key, +Pattern, +Known:dict, +Predicate:dict, -Reply:dict) is det.
%
%   Reply is reply{answer, text, places}: `yes`, `no` or `unknown`, with a
%   sentence, and place(Path, Line, Column, Text) for each place that it
%   names.

reply(_, Pattern, _, Predicate, reply{answer:yes, text:Text, places:[]}) :-
    member(Mode, Predicate.modes),
    meets(Pattern, Mode),
    !,
    modes_text([Mode], ModeText),
    numbers_text(Predicate.assumptions, If),
    format(string(Text), "it ends: ~s~s", [ModeText, If]).
reply(Key, Pattern, Known, Predicate, Reply) :-
    (   looping(Key, Pattern, Known, Loop)
    ->  true
    ;   Loop = none
    ),
    reply_of_loop(Loop, Key, Pattern, Known, Predicate, Reply).

reply_of_loop(file(Query, Clauses), _, _, Known, _, reply{answer:no, text:Text, places:Places}) :-
    !,
    clauses_text(Clauses, Known, Lines, Places),
    format(string(Text), "~p does not end, unless an error ends it before: ~w again and again", [Query, Lines]).
reply_of_loop(Loop, Key, Pattern, Known, Predicate, reply{answer:unknown, text:Text, places:Places}) :-
    pattern_need(Key, Pattern, Known.reasoning, need(NeedText, Places)),
    (   Predicate.modes == []
    ->  Modes = ""
    ;   modes_text(Predicate.modes, ModesText),
        format(string(Modes), "; it ends where ~s", [ModesText])
    ),
    (   Loop == pure
    ->  Note = "; the pure program that covers the file has a loop at such a query, which need not be one of the file"
    ;   Note = ""
    ),
    format(string(Text), "~s~s~s", [NeedText, Modes, Note]).

clauses_text(Clauses, Known, Text, Places) :-
    sort(Clauses, Distinct),
    findall(place(File, Line, Column, "this clause comes again and again"),
            ( member(Place, Distinct), place_of_line(Place, Known.project.path, File, Line, Column) ),
            Places),
    findall(Line, member(place(_, Line, _, _), Places), Lines),
    atomic_list_concat(Lines, ', ', LinesText),
    (   Lines = [_]
    ->  format(atom(Text), "the clause of line ~w", [LinesText])
    ;   format(atom(Text), "the clauses of lines ~w", [LinesText])
    ).


%   looping(+Key, +Pattern, +Known, -Loop): cti finds a loop of a query of the
%   pattern in the pure program. Loop is file(Query, Lines) where the file has
%   one too, by the clauses of these lines, and else `pure`. That is tried for
%   some queries.

most_queries(60).
most_clauses(12).

looping(Key, Pattern, Known, Loop) :-
    Key = _:_/Arity,
    Arity =< 12,
    most_queries(Most),
    findall(Args, limited_query(Most, Key, Pattern, Known.source, Args), Queries0),
    list_to_set(Queries0, Queries),
    include(loops_in_pure_program(Key, Known), Queries, Looping),
    Looping \== [],
    plain_predicates(Key, Known, Plain),
    (   member(Args, Looping),
        loop_of_file(Key, Args, Plain, Query, Lines)
    ->  Loop = file(Query, Lines)
    ;   Loop = pure
    ).

loops_in_pure_program(Key, Known, Args) :-
    pure_query(Known.names, Key, Args, Text),
    catch(cti_loop(Known.pure_file, Text, loop(_, _)), error(cti_error(_, _), _), fail).

limited_query(Most, Key, Pattern, Source, Args) :-
    limit_of(Most, query_arguments(Key, Pattern, Source, Args)).

:- meta_predicate limit_of(+, 0).

limit_of(Most, Goal) :-
    State = count(0),
    call(Goal),
    arg(1, State, Count0),
    Count is Count0 + 1,
    nb_setarg(1, State, Count),
    (   Count >= Most
    ->  !
    ;   true
    ).

query_arguments(Key, Pattern, Source, Args) :-
    source_clauses(Source, Key, Clauses),
    file_constant(Source, Constant),
    chosen(Pattern, 1, Clauses, Constant, Args).

chosen([], _, _, _, []).
chosen([Letter|Letters], I, Clauses, Constant, [Arg|Args]) :-
    candidate(Letter, I, Clauses, Constant, Arg),
    Next is I + 1,
    chosen(Letters, Next, Clauses, Constant, Args).

candidate(f, _, _, _, _).
candidate(l, _, _, _, [_]).
candidate(l, _, _, _, [_, _]).
candidate(l, _, _, _, []).
candidate(b, I, Clauses, Constant, Arg) :-
    (   Arg = Constant
    ;   Arg = []
    ;   filled(I, Clauses, 1, Constant, Arg)
    ;   filled(I, Clauses, 2, Constant, Arg)
    ).

%   filled(+I, +Clauses, +Depth, +Constant, -Arg): an argument of a head, with
%   itself in the place of its variables, so often, and then the constant.

filled(I, Clauses, Depth, Constant, Arg) :-
    member(clause(_, Head, _), Clauses),
    arg(I, Head, Arg0),
    nonvar(Arg0),
    copy_term(Arg0, Arg),
    term_variables(Arg, Variables),
    Variables \== [],
    (   Depth =:= 1
    ->  Value = Constant
    ;   copy_term(Arg0, Value),
        term_variables(Value, Inner),
        maplist(=(Constant), Inner)
    ),
    maplist(=(Value), Variables).

%   Some constants that stand as arguments in heads of the file.

file_constant(Source, Constant) :-
    findall(C,
            ( assoc_to_values(Source.clauses, Lists),
              member(Clauses, Lists),
              member(clause(_, Head, _), Clauses),
              compound(Head),
              arg(_, Head, C),
              atomic(C),
              C \== [] ),
            Constants0),
    sort(Constants0, Constants),
    (   Constants == []
    ->  Constant = a
    ;   nth1(I, Constants, Constant),
        I =< 4
    ).


%   loop_of_file(+Key, +Args, +Plain, -Query, -Lines): a derivation of Query by
%   clauses of the file comes back to an atom that is as general, and resolves
%   no atom that stood after it. The predicates on the way are Plain, so
%   SWI-Prolog goes this way too.

loop_of_file(Key, Args, Plain, Query, Lines) :-
    Key = _:Name/_,
    Goal =.. [Name|Args],
    copy_term(Goal, Query),
    numbervars(Query, 0, _),
    most_clauses(Most),
    call_with_inference_limit(once(comes_back([Key-Goal], [], Most, Plain, Lines)), 5_000_000, Result),
    Result \== inference_limit_exceeded.

%   comes_back(+Goals, +Before, +Most, +Plain, -Lines): Before has
%   before(Key, Atom, Count, Lines) for atoms that were resolved, with Count atoms
%   after them, and the lines of the clauses since then.

comes_back([unification-(A = B)|Goals], Before, Most, Plain, Lines) :-
    !,
    unify_with_occurs_check(A, B),
    comes_back(Goals, Before, Most, Plain, Lines).
comes_back([Key-Goal|Goals], Before0, Most, Plain, Lines) :-
    length(Goals, Count),
    include(is_still_after(Count), Before0, Before1),
    (   member(before(Key, Atom, _, Lines0), Before1),
        subsumes_term(Goal, Atom)
    ->  Lines = Lines0
    ;   Most > 0,
        get_assoc(Key, Plain, Clauses),
        copy_term(Goal, Atom),
        member(clause(Line, Head0, Body0), Clauses),
        copy_term(Head0-Body0, Head-Body),
        unify_with_occurs_check(Head, Goal),
        Key = Module:_,
        body_goals(Body, Module, BodyGoals),
        append(BodyGoals, Goals, Goals1),
        maplist(with_line(Line), [before(Key, Atom, Count, [])|Before1], Before),
        Less is Most - 1,
        comes_back(Goals1, Before, Less, Plain, Lines)
    ).

is_still_after(Count, before(_, _, Count0, _)) :-
    Count >= Count0.

with_line(Line, before(Key, Atom, Count, Lines), before(Key, Atom, Count, [Line|Lines])).

%   plain_predicates(+Key, +Known, -Plain): an assoc of the clauses of each
%   predicate that Key reaches and that has nothing in its clauses but calls of
%   the file's predicates and unifications, and of which no more is assumed. Of
%   a file with `=>` each clause is read again, since these rules match and
%   commit.

plain_predicates(Key, Known, Plain) :-
    Source = Known.source,
    (   Source.doubts == []
    ->  reachable([Key], Known.graph, [], Keys),
        convlist(plain_clauses(Known), Keys, Pairs)
    ;   Pairs = []
    ),
    list_to_assoc(Pairs, Plain).

reachable([], _, Keys, Keys).
reachable([Key|Others], Graph, Keys0, Keys) :-
    (   memberchk(Key, Keys0)
    ->  reachable(Others, Graph, Keys0, Keys)
    ;   get_assoc(Key, Graph, Callees),
        append(Callees, Others, More),
        reachable(More, Graph, [Key|Keys0], Keys)
    ).

plain_clauses(Known, Key, Key-Clauses) :-
    Source = Known.source,
    Key = Module:PI,
    is_defined(Source, Key),
    source_clauses(Source, Key, Clauses),
    memberchk(predicate(Key, _, []), Known.program),
    \+ memberchk(Key, Source.dynamic),
    \+ memberchk(Key, Source.multifile),
    \+ memberchk(Key-_, Source.tabled),
    \+ memberchk(Key-_, Source.meta),
    forall(member(clause(_, _, Body), Clauses), is_plain_body(Body, Module, Source)),
    (   has_text(Source.path, "=>")
    ->  forall(member(clause(Place, _, _), Clauses),
               ( place_of_line(Place, Known.project.path, File, Line, _),
                 clause_at(File, Line, Source.operators, PI, Clause),
                 \+ Clause.term = (_ => _) ))
    ;   true
    ).

is_plain_body(Body, Module, Source) :-
    nonvar(Body),
    (   Body = (A, B)
    ->  is_plain_body(A, Module, Source),
        is_plain_body(B, Module, Source)
    ;   Body = (_ = _)
    ->  true
    ;   Body == true
    ->  true
    ;   callable(Body),
        Body \= _:_,
        \+ is_protected(Body),
        \+ ( compound(Body), compound_name_arity(Body, _, 0) ),
        functor(Body, Name, Arity),
        is_defined(Source, Module:Name/Arity)
    ).

body_goals((A, B), Module, Goals) :-
    !,
    body_goals(A, Module, GoalsA),
    body_goals(B, Module, GoalsB),
    append(GoalsA, GoalsB, Goals).
body_goals(true, _, []) :- !.
body_goals(A = B, _, [unification-(A = B)]) :- !.
body_goals(Goal, Module, [(Module:Name/Arity)-Goal]) :-
    functor(Goal, Name, Arity).


%!  pattern_need(+Key, +Pattern, +Reasoning:dict, -Need) is det.
%
%   Need is need(Text, Places): what it is that a query of the pattern is not
%   known to give to a call. What is ground after a call is taken from the
%   certificate, argument by argument.

pattern_need(Key, Pattern, Reasoning, need(Text, Places)) :-
    (   lacking_call(Key, Pattern, Reasoning, Text0, Places0)
    ->  Text = Text0, Places = Places0
    ;   get_assoc(Key, Reasoning.found, [])
    ->  reason(Key, Reasoning, _, Text, Places)
    ;   Text = "nothing that is known of its arguments is sure to get smaller",
        Places = []
    ).

lacking_call(Key, Pattern, Reasoning, Text, Places) :-
    get_assoc(Key, Reasoning.clauses, Clauses),
    get_assoc(Key, Reasoning.components, Component),
    member(clause(Args, Goals, Line), Clauses),
    known_arguments(Pattern, Args, Known),
    nth_call(Goals, Known, Reasoning, 1, Index, Callee, CallArgs, KnownThere),
    \+ memberchk(Callee, Component),
    get_assoc(Callee, Reasoning.found, Found),
    Found \== [],
    \+ ( member(found(Set, _, _), Found),
         forall(( member(I, Set), nth1(I, CallArgs, Arg) ), is_ground_by(KnownThere, Arg)) ),
    !,
    call_need(Key, clause(Args, Goals, Line), Index, Found, Reasoning, Text, Places).

%!  lacking_calls(+Known:dict, -Lacking) is det.
%
%   Lacking has Callee-call(Pattern, Path, Line, Column) for the calls in clauses
%   of the files, of predicates without modes, that none of the callee's modes
%   meets, even if all arguments of the clause's head are ground.

lacking_calls(Known, Lacking) :-
    Reasoning = Known.reasoning,
    findall(Callee-call(Pattern, Path, Line, Column),
            ( gen_assoc(Key, Reasoning.found, []),
              named_key(Key, Named),
              is_own(Named, Reasoning),
              get_assoc(Key, Reasoning.clauses, Clauses),
              get_assoc(Key, Reasoning.components, Component),
              member(Clause, Clauses),
              lacking_in(Key, Clause, Component, Reasoning, Callee, Pattern, Path, Line, Column),
              memberchk(Path, Known.project.files) ),
            Lacking).

lacking_in(Key, clause(Args, Goals, Place), Component, Reasoning, Callee, Pattern, Path, Line, Column) :-
    term_variables(Args, Known),
    nth_call(Goals, Known, Reasoning, 1, Index, Callee, CallArgs, KnownThere),
    Callee = _:_,
    \+ memberchk(Callee, Component),
    get_assoc(Callee, Reasoning.found, Found),
    Found \== [],
    maplist(letter(KnownThere), CallArgs, Pattern),
    \+ ( member(found(Arguments, By, _), Found), meets(Pattern, mode{arguments:Arguments, by:By}) ),
    call_place(Key, clause(Args, Goals, Place), Index, Reasoning, Path, Line, Column).

letter(Known, Arg, Letter) :-
    (   is_ground_by(Known, Arg)
    ->  Letter = b
    ;   Letter = f
    ).

known_arguments([], _, []) :- !.
known_arguments(_, [], []) :- !.
known_arguments([Letter|Letters], [Arg|Args], Known) :-
    known_arguments(Letters, Args, Known0),
    (   Letter == b
    ->  term_variables(Arg-Known0, Known)
    ;   Known = Known0
    ).

is_ground_by(Known, Arg) :-
    term_variables(Arg, Variables),
    forall(member(V, Variables), ( member(W, Known), W == V )).

%   nth_call(+Goals, +Known, +Reasoning, +Index0, -Index, -Callee, -Args, -Known):
%   each call with the variables that are ground before it.

nth_call([Goal|Goals], Known0, Reasoning, Index0, Index, Callee, Args, Known) :-
    (   Goal = call(Callee0, Args0)
    ->  (   Index = Index0, Callee = Callee0, Args = Args0, Known = Known0, Callee \== fail
        ;   after_call(Callee0, Args0, Reasoning, Known0, Known1),
            Next is Index0 + 1,
            nth_call(Goals, Known1, Reasoning, Next, Index, Callee, Args, Known)
        )
    ;   Goal = (A = B),
        after_unification(A, B, Known0, Known1),
        Next is Index0 + 1,
        nth_call(Goals, Known1, Reasoning, Next, Index, Callee, Args, Known)
    ).

after_unification(A, B, Known0, Known) :-
    (   ( is_ground_by(Known0, A) ; is_ground_by(Known0, B) )
    ->  term_variables(Known0-A-B, Known)
    ;   Known = Known0
    ).

%   The rows of the certificate say which arguments are ground together.

after_call(fail, _, _, Known, Known) :- !.
after_call(Callee, Args, Reasoning, Known0, Known) :-
    (   get_assoc(Callee, Reasoning.grounds, Rows)
    ->  true
    ;   Rows = []
    ),
    include(agrees(Args, Known0), Rows, Possible),
    ground_after(Args, 1, Possible, Ground),
    term_variables(Known0-Ground, Known).

agrees([], _, []).
agrees([Arg|Args], Known, [Cell|Row]) :-
    \+ ( Cell == 0, is_ground_by(Known, Arg) ),
    agrees(Args, Known, Row).

ground_after([], _, _, []).
ground_after([Arg|Args], I, Rows, Ground) :-
    (   forall(member(Row, Rows), nth1(I, Row, 1))
    ->  Ground = [Arg|More]
    ;   Ground = More
    ),
    Next is I + 1,
    ground_after(Args, Next, Rows, More).
