:- module(reasons,
          [ reasoning/2,                % +Known, -Reasoning
            reason/5,                   % +Key, +Reasoning, -Reason, -Text, -Places
            call_need/7,                % +Key, +Clause, +Goal, +Found, +Reasoning, -Text, -Places
            call_place/7,               % +Key, +Clause, +Goal, +Reasoning, -Path, -Line, -Column
            is_own/2,                   % +Key, +Reasoning
            shown/3                     % +Key, +Module, -Shown
          ]).

/** <module> Why a predicate has no mode

A reason is one of

  - nothing_falls(Calls): no weighted sum of sizes gets smaller at all the
    Calls;
  - large(Count): its component has too many arguments for the search;
  - blown: the search was given up;
  - calls(Line, Predicate): it calls one without modes;
  - needs(Calls): of each Call some arguments have to be ground, and are not
    sure to be;
  - unknown

where a call is call(Line, Predicate), or call(Line, Predicate, Sets) with the
modes of the predicate. Line is a line of the file, or library(Name):Line.

It is what cti's own note says, with the calls as they stand in the file. cti
writes at most twenty notes; of other predicates it is taken from the
certificate.
*/

:- use_module(library(apply)).
:- use_module(library(assoc)).
:- use_module(library(lists)).
:- use_module(library(occurs)).
:- use_module(library(pairs)).
:- use_module(answer_text).
:- use_module(places).
:- use_module(pure_program, [named_key/2]).
:- use_module(real_goals, [pure_term/2]).
:- use_module(real_modules, [root_source/2, source_of/3]).

%!  reasoning(+Known:dict, -Reasoning:dict) is det.
%
%   What reason/5 needs, made once for a file.

reasoning(Known, Reasoning) :-
    findall(Key-Clauses, member(predicate(Key, Clauses, _), Known.program), ClausesOf0),
    list_to_assoc(ClausesOf0, ClausesOf),
    findall(Key-Component, ( member(Component, Known.components), member(Key, Component) ), ComponentOf0),
    list_to_assoc(ComponentOf0, ComponentOf),
    Known.found.results = [First|_],
    transposed(Known.names, ByName),
    given_up(First.facts, ByName, GivenUp),
    findall(Key-What, ( member(said(Name, What), First.notes), get_assoc(Name, ByName, Key) ), Notes),
    findall(Key-What,
            ( member(Result, Known.found.results),
              Result.by == length,
              member(said(Name, What), Result.notes),
              get_assoc(Name, ByName, Key) ),
            LengthNotes),
    ground_rows(First.facts, ByName, Grounds),
    findall(Key-Clause, ( member(predicate(Key, Clauses, _), Known.program), member(Clause, Clauses) ), AllClauses),
    compound_name_arguments(Numbered, clauses, AllClauses),
    first_numbers(Known.program, 1, Numbers0),
    list_to_assoc(Numbers0, Numbers),
    Reasoning = reasoning{project:Known.project, source:Known.source, program:Known.program, clauses:ClausesOf,
                          modes:First.modes, found:Known.found.modes, given_up:GivenUp, notes:Notes, by:First.by,
                          components:ComponentOf, grounds:Grounds, numbers:Numbers, numbered:Numbered,
                          length_notes:LengthNotes}.

transposed(Names, ByName) :-
    findall(Name-Key, member(Key-Name, Names), Pairs0),
    sort(1, @<, Pairs0, Pairs),
    list_to_assoc(Pairs, ByName).

%   The number of each key's first clause.

first_numbers([], _, []).
first_numbers([predicate(Key, Clauses, _)|Program], Number, [Key-Number|Numbers]) :-
    length(Clauses, Count),
    Next is Number + Count,
    first_numbers(Program, Next, Numbers).

%   Which arguments of each key are ground together in its answers.

ground_rows(Facts, ByName, Grounds) :-
    findall(Key-Row, ( member(grounds(Name, _, Row), Facts), get_assoc(Name, ByName, Key) ), Pairs0),
    keysort(Pairs0, Pairs),
    group_pairs_by_key(Pairs, Groups),
    list_to_assoc(Groups, Grounds).

%!  reason(+Key, +Reasoning:dict, -Reason, -Text:string, -Places) is det.
%
%   Places are place(Path, Line, Column, Text), the culprits.

reason(Key, Known, Reason, Text, Places) :-
    get_assoc(Key, Known.components, Component),
    (   ( said_of(Component, Known, What) ; certified(Component, Known, What) ),
        from_note(What, Component, Known, Reason, Text0, Places0)
    ->  Text = Text0, Places = Places0
    ;   Reason = unknown,
        reason_text(Reason, Text),
        Places = []
    ).

%   said_of(+Component, +Known, -What): a note is of one of a component.

said_of(Component, Known, What) :-
    member(Key, Component),
    memberchk(Key-What, Known.notes),
    !.


%   from_note(+What, +Component, +Known, -Reason, -Text, -Places)

from_note(given_up(Given), _, _, Given, Text, []) :-
    reason_text(Given, Text).
from_note(falls_not(Calls), _, Known, nothing_falls(Shown), Text, Places) :-
    maplist(seen_call(Known), Calls, Seen0),
    own_first(Seen0, Seen, Others),
    maplist(call_term, Seen, Shown),
    findall(One, ( member(Call, Seen), call_text(Call, One) ), Texts),
    atomic_list_concat(Texts, ', ', Where),
    (   Calls = [_]
    ->  format(string(Text0), "no known size of its arguments gets smaller at the call of ~w", [Where])
    ;   Others == []
    ->  format(string(Text0), "no single weighted sum of its arguments' sizes gets smaller at all of these calls: ~w",
               [Where])
    ;   format(string(Text0), "no single weighted sum of its arguments' sizes gets smaller where ~w calls it again",
               [Where])
    ),
    lost_hint(Seen, Hint),
    string_concat(Text0, Hint, Text),
    findall(place(Path, Line, Column, "nothing gets smaller at this call"),
            ( member(Call, Seen), _{path:Path, line:Line, column:Column} :< Call ),
            Places).
from_note(callee(Call), Component, Known, Reason, Text, Places) :-
    seen_call(Known, Call, Seen),
    called_cause(Seen, Component, Known, Reason, Text, Places).
from_note(needs(Call, Names, After, _), Component, Known, needs([call(Line, Shown, Sets)]), Text, Places) :-
    seen_call(Known, Call, Seen),
    _{line:Line0, shown:Shown, key:Callee, path:Path, column:Column} :< Seen,
    line_shown(Known, Path, Line0, Line),
    (   member(Member, Component),
        memberchk(Member-needs(Call, _, _, _), Known.length_notes),
        length_sets(Callee, Known, Sets)
    ->  By = length
    ;   By = Known.by,
        modes_of(Callee, Known, Sets)
    ),
    known_word(By, Word),
    needs_text(Sets, Needs),
    append(Sets, Needed),
    include(is_lost_in(Needed), Seen.lost, Lost),
    names_text(Names, Lost, Seen, NamesText),
    call_text(Seen, CallText),
    after_text(After, Known, AfterText),
    lost_hint([Seen.put(lost, Lost)], Hint),
    format(string(Text), "~w needs ~w ~w, and ~w not sure to be~w~s",
           [CallText, Needs, Word, NamesText, AfterText, Hint]),
    format(string(PlaceText), "this call needs ~w ~w", [Needs, Word]),
    Places = [place(Path, Line0, Column, PlaceText)].
from_note(unmet(Calls), _, Known, Reason, Text, Places) :-
    needing("no ~w arguments of a query are enough for all of these calls: ~w", Calls, Known, Reason, Text, Places).
from_note(unsure(Calls), _, Known, Reason, Text, Places) :-
    needing("not all that these calls need is sure to be ~w: ~w", Calls, Known, Reason, Text, Places).

needing(Format, Calls, Known, needs(Shown), Text, Places) :-
    maplist(seen_call(Known), Calls, Seen0),
    own_first(Seen0, Seen, _),
    findall(call(Line, PI, Sets),
            ( member(Call, Seen),
              _{line:Line0, shown:PI, key:Callee, path:Path} :< Call,
              line_shown(Known, Path, Line0, Line),
              modes_of(Callee, Known, Sets) ),
            Shown),
    Shown = [_|_],
    findall(One,
            ( member(Call, Seen),
              call_text(Call, CallText),
              _{key:Callee} :< Call,
              modes_of(Callee, Known, Sets),
              format(atom(One), "~w ~w", [CallText, Sets]) ),
            Texts),
    atomic_list_concat(Texts, ', ', Where),
    known_word(Known.by, Word),
    format(string(Text), Format, [Word, Where]),
    findall(place(Path, Line, Column, "this call needs more than is known"),
            ( member(Call, Seen), _{path:Path, line:Line, column:Column} :< Call ),
            Places).

%!  call_need(+Key, +Clause, +Goal, +Found, +Reasoning:dict, -Text, -Places) is det.
%
%   Text says that the call of this number in the body of Clause, of the pure
%   program, needs one of the modes Found.

call_need(Key, Clause, GoalNumber, Found, Known, Text, [place(Path, Line, Column, PlaceText)]) :-
    seen_goal(Known, Key, Clause, GoalNumber, Seen),
    _{path:Path, line:Line, column:Column} :< Seen,
    call_text(Seen, CallText),
    findall(One, ( member(found(Set, By, _), Found), arguments_text(Set, Arguments), known_word(By, Word),
                   format(atom(One), "~w ~w", [Arguments, Word]) ), Ones),
    atomic_list_concat(Ones, ' or ', Needs),
    format(string(Text), "~w needs ~w, and that is not sure", [CallText, Needs]),
    format(string(PlaceText), "this call needs ~w", [Needs]).

%!  call_place(+Key, +Clause, +Goal, +Reasoning:dict, -Path, -Line, -Column) is semidet.
%
%   The place of the call of this number in the body of Clause, of the pure
%   program.

call_place(Key, Clause, GoalNumber, Known, Path, Line, Column) :-
    seen_goal(Known, Key, Clause, GoalNumber, Seen),
    _{path:Path, line:Line, column:Column} :< Seen.

%   A call of what has no mode: a part of the clause is the clause's own, and of
%   a library's predicate it is said what it lacks.

called_cause(Seen, _, Known, Reason, Text, Places) :-
    Seen.key = part(_, _),
    !,
    get_assoc(Seen.key, Known.components, Component),
    said_of(Component, Known, What),
    from_note(What, Component, Known, Reason, Text, Places).
called_cause(Seen, _, Known, calls(Line, Shown), Text, [place(Path, Line0, Column, "what is called has no mode")]) :-
    _{line:Line0, shown:Shown, key:Callee, path:Path, column:Column} :< Seen,
    line_shown(Known, Path, Line0, Line),
    call_text(Seen, CallText),
    (   \+ is_own(Callee, Known),
        inner_cause(Callee, Seen, Known, 8, Inner)
    ->  format(string(Text), "~w ~s", [CallText, Inner])
    ;   format(string(Text), "calls ~w, which has none", [CallText])
    ).

%   inner_cause(+Key, +Seen, +Known, +Depth, -Text): why a library's predicate,
%   or a copy of it for a goal that is known, has no mode at the call Seen.

inner_cause(Key, Seen, Known, Depth, Text) :-
    Depth > 0,
    get_assoc(Key, Known.components, Component),
    said_of(Component, Known, What),
    (   What = callee(Call)
    ->  inner_call(Call, Known, Callee),
        (   is_own(Callee, Known)
        ->  shown_key(Callee, Known, Shown),
            format(string(Text), "calls ~q, which has none", [Shown])
        ;   Less is Depth - 1,
            inner_cause(Callee, Seen, Known, Less, Text)
        )
    ;   What = needs(Call, _, _, _)
    ->  inner_call(Call, Known, Callee),
        shown_key(Callee, Known, Shown),
        modes_of(Callee, Known, Sets),
        needs_text(Sets, Needs),
        known_word(Known.by, Word),
        lambda_hint(Seen, Hint),
        format(string(Text), "calls ~q, which needs ~w ~w, and that is not sure~s", [Shown, Needs, Word, Hint])
    ;   What = falls_not(_)
    ->  Text = "has none: nothing in it gets smaller"
    ).

inner_call(at(Number, Goal), Known, Callee) :-
    arg(Number, Known.numbered, _-clause(_, Goals, _)),
    nth1(Goal, Goals, call(Callee, _)).

%!  is_own(+Key, +Reasoning:dict) is semidet.
%
%   The predicate is one of the files that are asked for.

is_own(Key, Known) :-
    Key = _:_,
    source_of(Known.project, Key, Source),
    is_root(Source, Known).

is_root(Source, Known) :-
    root_source(Known.project, Root),
    Root.path == Source.path,
    !.


%   seen_call(+Known, +At, -Seen:dict): a call of the pure program as it stands in
%   a file: seen{key, shown, path, line, column, own, clause, goal, lost}. lost
%   are the variables of the goal of which the pure program knows nothing.

seen_call(Known, at(Number, GoalNumber), Seen) :-
    arg(Number, Known.numbered, Key-Clause),
    seen_goal(Known, Key, Clause, GoalNumber, Seen).

seen_goal(Known, Key, clause(Args, Goals, Place), GoalNumber, Seen) :-
    nth1(GoalNumber, Goals, call(Callee, CallArgs)),
    named_key(Key, Named),
    shown_key(Callee, Known, Shown),
    (   Named = _:_,
        source_of(Known.project, Named, Source)
    ->  true
    ;   Source = Known.source
    ),
    place_of_line(Place, Known.project.path, Path, Line0, Column0),
    (   is_root(Source, Known)
    ->  Own = true
    ;   Own = false
    ),
    Seen0 = seen{key:Callee, shown:Shown, path:Path, main:Known.project.path, own:Own, pure:clause(Args, Goals)},
    Named = _:NamedPI,
    (   clause_at(Path, Line0, Source.operators, NamedPI, Clause),
        same_name_before(Goals, GoalNumber, Callee, Before),
        written_as(Callee, WrittenPI),
        occurrence_of(Clause, WrittenPI, CallArgs, Before, Goal, Line-Column)
    ->  lost_variables(Clause, Callee, Goal, CallArgs, Args-Goals, Lost),
        Seen1 = Seen0.put(_{line:Line, column:Column, goal:Goal, clause:Clause, lost:Lost, arguments:CallArgs}),
        (   Callee = prelude(_)
        ->  Seen = Seen1.put(shown, WrittenPI)
        ;   Seen = Seen1
        )
    ;   Seen = Seen0.put(_{line:Line0, column:Column0, goal:none, clause:none, lost:[], arguments:CallArgs})
    ).

%   written_as(+Key, -PI): what the text has for a call of Key.

written_as(prelude(Name/_), PI) :-
    !,
    prelude_of(Name, PIs),
    member(PI, PIs).
written_as(Key, PI) :-
    named_key(Key, _:PI).

prelude_of(member, [memberchk/2, predsort/3]).
prelude_of(nth, [nth0/3, nth1/3]).
prelude_of(sort, [sort/2, sort/4, list_to_set/2, list_to_ord_set/2, predsort/3]).
prelude_of(permute, [msort/2, keysort/2]).
prelude_of(length, [length/2]).
prelude_of(repeat, [repeat/0, between/3]).

%   How many goals before this one have the same name.

same_name_before(Goals, GoalNumber, Callee, Before) :-
    named_key(Callee, _:PI),
    findall(I,
            ( nth1(I, Goals, call(Key, _)),
              I < GoalNumber,
              named_key(Key, _:PI) ),
            Is),
    length(Is, Before).

%   occurrence_of(+Clause, +PI, +Args, +Before, -Goal, -Place): the goal whose
%   arguments look like Args, and else the one with as many before it.

occurrence_of(Clause, PI, Args, Before, Goal, Place) :-
    occurrences(Clause, PI, Occurrences),
    include(looks_like(Args), Occurrences, Like),
    (   Like = [Goal-Place]
    ->  true
    ;   nth0(Before, Occurrences, Goal-Place)
    ->  true
    ;   Occurrences = [Goal-Place|_]
    ).

looks_like(Args, Goal-_) :-
    arguments(Goal, GoalArgs),
    maplist(pure_term, GoalArgs, Pure),
    length(Pure, Count),
    length(First, Count),
    append(First, _, Args),
    First =@= Pure.

arguments(Goal, Args) :-
    (   compound(Goal)
    ->  compound_name_arguments(Goal, _, Args)
    ;   Args = []
    ).

goal_name(Goal, Name) :-
    (   compound(Goal)
    ->  compound_name_arity(Goal, Name, _)
    ;   Name = Goal
    ).

%   lost_variables(+Clause, +Key, +Goal, +CallArgs, +Pure, -Lost): Argument-Name
%   for the variables of Goal of which each is elsewhere in Clause, while what
%   stands for it in the pure clause is nowhere else.

lost_variables(Clause, Key, Goal, CallArgs, Pure, Lost) :-
    arguments(Goal, GoalArgs),
    (   Key = special(_, Closures),
        same_length(GoalArgs, Closures)
    ->  findall(I, nth1(I, Closures, -), Is)
    ;   findall(I, nth1(I, GoalArgs, _), Is)
    ),
    findall(I-Name,
            ( nth1(Nth, Is, I),
              nth1(I, GoalArgs, Real),
              nth1(Nth, CallArgs, PureArg),
              var(PureArg),
              occurrences_of_var(PureArg, Pure, 1),
              term_variables(Real, Variables),
              member(Variable, Variables),
              occurrences_of_var(Variable, Clause.term, Times),
              Times > 1,
              variable_name(Clause, Variable, Name) ),
            Lost0),
    sort(Lost0, Lost).

own_first(Seen, Own, Others) :-
    partition(is_in_file, Seen, Own0, Others0),
    (   Own0 == []
    ->  Own = Others0, Others = []
    ;   Own = Own0, Others = Others0
    ).

is_in_file(Seen) :-
    Seen.own == true.

call_term(Seen, call(Line, Shown)) :-
    _{line:Line0, shown:Shown, path:Path, main:Main} :< Seen,
    line_of(Path, Main, Line0, Line).

call_text(Seen, Text) :-
    _{line:Line, column:Column, shown:Shown, path:Path, main:Main} :< Seen,
    place_text(Path, Line, Column, Main, Place),
    format(atom(Text), "~q at ~w", [Shown, Place]).

line_shown(Known, Path, Line0, Line) :-
    line_of(Path, Known.project.path, Line0, Line).

line_of(Path, Main, Line0, Line) :-
    (   Path == Main
    ->  Line = Line0
    ;   file_shown(Path, File),
        Line = File:Line0
    ).

modes_of(Key, Known, Sets) :-
    get_assoc(Key, Known.modes, Sets).

%   length_sets(+Key, +Known, -Sets): the modes of Key are all by length, so that
%   it needs no more.

length_sets(Key, Known, Sets) :-
    get_assoc(Key, Known.found, Found),
    Found = [_|_],
    forall(member(found(_, By, _), Found), By == length),
    findall(Set, member(found(Set, _, _), Found), Sets).

known_word(ground, ground).
known_word(length, 'known by length').

%   needs_text(+Sets, -Text): argument 1, or the arguments 2 and 3.

needs_text(Sets, Text) :-
    findall(One, ( member(Set, Sets), arguments_text(Set, One) ), Texts),
    atomic_list_concat(Texts, ' or ', Text).

arguments_text([Argument], Text) :-
    !,
    format(atom(Text), "argument ~d", [Argument]).
arguments_text(Set, Text) :-
    append(First, [Last], Set),
    atomic_list_concat(First, ', ', Commas),
    format(atom(Text), "arguments ~w and ~d", [Commas, Last]).

is_lost_in(Arguments, Argument-_) :-
    memberchk(Argument, Arguments).

%   names_text(+PureNames, +Lost, +Seen, -Text): which variables of the file these
%   are.

names_text(PureNames, Lost, Seen, Text) :-
    findall(Name, ( member(PureName, PureNames), source_name(PureName, Seen, Name) ), Names0),
    findall(Name, member(_-Name, Lost), LostNames),
    append(Names0, LostNames, Names1),
    sort(Names1, Names),
    (   Names == []
    ->  Text = 'that is'
    ;   Names = [Name]
    ->  format(atom(Text), "`~w` is", [Name])
    ;   findall(Quoted, ( member(Name, Names), format(atom(Quoted), "`~w`", [Name]) ), QuotedNames),
        atomic_list_concat(QuotedNames, ', ', List),
        format(atom(Text), "~w are", [List])
    ).

%   The pure clause's variables are named in the order in which they occur in it.

source_name(PureName, Seen, Name) :-
    string_concat("X", Digits, PureName),
    number_string(Number, Digits),
    Seen.pure = clause(Args, Goals),
    copy_term(Args-Goals-Seen.arguments, Args1-Goals1-CallArgs),
    numbervars(Args1-Goals1, 0, _, [singletons(true)]),
    Seen.goal \== none,
    arguments(Seen.goal, GoalArgs),
    length(GoalArgs, Count),
    length(First, Count),
    append(First, _, CallArgs),
    aligned(GoalArgs, First, Variable, Number),
    variable_name(Seen.clause, Variable, Name),
    !.

%   aligned(+Reals, +Pures, -Variable, +Number): Variable stands where the pure
%   variable of that number does.

aligned(Reals, Pures, Variable, Number) :-
    nth1(I, Reals, Real),
    nth1(I, Pures, Pure),
    aligned_term(Real, Pure, Variable, Number).

aligned_term(Real, Pure, Variable, Number) :-
    (   Pure == '$VAR'(Number)
    ->  var(Real),
        Variable = Real
    ;   compound(Real),
        compound(Pure),
        compound_name_arguments(Real, _, Reals),
        compound_name_arguments(Pure, _, Pures),
        same_length(Reals, Pures),
        aligned(Reals, Pures, Variable, Number)
    ).

after_text(none, _, '') :- !.
after_text(At, Known, Text) :-
    seen_call(Known, At, Seen),
    call_text(Seen, CallText),
    format(atom(Text), " after ~w", [CallText]).

%   Hints: what a variable is bound by, of which nothing is known; and what a
%   lambda expression makes anew.

lost_hint(Seen, Hint) :-
    (   member(Call, Seen),
        Call.clause \== none,
        member(_-Name, Call.lost),
        binder(Call, Name, Binder, Place)
    ->  place_shown(Place, PlaceText),
        format(string(Hint), "; nothing is known of what ~q at ~w gives for `~w`", [Binder, PlaceText, Name])
    ;   member(Call, Seen),
        lambda_hint(Call, Hint),
        Hint \== ""
    ->  true
    ;   Hint = ""
    ).

place_shown(Line-Column, Text) :-
    format(atom(Text), "~d:~d", [Line, Column]).

%   binder(+Seen, +Name, -PI, -Place): the first goal of the clause with the
%   variable, if the pure clause does not have it.

binder(Seen, Name, PI, Place) :-
    Clause = Seen.clause,
    memberchk(Name=Variable, Clause.names),
    Seen.pure = clause(_, Goals),
    occurrence_with(Clause, Variable, PI, Place),
    PI \= (',')/2,
    \+ ( member(call(Key, _), Goals), named_key(Key, _:PI) ),
    !.

occurrence_with(Clause, Variable, Name/Arity, Place) :-
    goals_of(Clause.term, Goals),
    member(Goal, Goals),
    callable(Goal),
    sub_term(Sub, Goal),
    Sub == Variable,
    !,
    Goal \= (_ = _),
    arguments(Goal, Args),
    length(Args, Arity),
    goal_name(Goal, Name),
    occurrences(Clause, Name/Arity, Occurrences),
    member(Found-Place, Occurrences),
    Found == Goal,
    !.

goals_of(Term, Goals) :-
    (   nonvar(Term), ( Term = (_ :- Body) ; Term = (_ --> Body) ; Term = (_ => Body) )
    ->  control_goals(Body, Goals, [])
    ;   Goals = []
    ).

control_goals(Goal, Goals, Rest) :-
    var(Goal),
    !,
    Goals = Rest.
control_goals(Goal, Goals, Rest) :-
    is_control(Goal, A, B),
    !,
    control_goals(A, Goals, More),
    control_goals(B, More, Rest).
control_goals(Goal, [Goal|Rest], Rest).

is_control((A, B), A, B).
is_control((A ; B), A, B).
is_control((A -> B), A, B).
is_control((A *-> B), A, B).
is_control(\+ A, A, true).
is_control({A}, A, true).

%   A lambda expression without {..}/ has new variables each time.

lambda_hint(Seen, Hint) :-
    (   Seen.clause \== none,
        Clause = Seen.clause,
        sub_term(Lambda, Seen.goal),
        nonvar(Lambda),
        Lambda = (Parameters>>Body),
        \+ ( nonvar(Parameters), Parameters = _/_ ),
        global_names(Clause, Lambda, Parameters, Body, Names),
        Names \== []
    ->  atomic_list_concat(Names, ',', List),
        format(string(Hint), "; in the lambda expression `~w` is a new variable each time: {~w}/[..]>>.. shares it",
               [List, List])
    ;   Hint = ""
    ).

global_names(Clause, Lambda, Parameters, Body, Names) :-
    term_variables(Body, Variables),
    term_variables(Parameters, Own),
    findall(Name,
            ( member(Name=Variable, Clause.names),
              member(Inside, Variables),
              Inside == Variable,
              \+ ( member(Parameter, Own), Parameter == Variable ),
              occurrences_of_var(Variable, Clause.term, All),
              occurrences_of_var(Variable, Lambda, Within),
              All > Within ),
            Names0),
    sort(Names0, Names).


%   certified(+Component, +Known, -What): the same as a note, from the facts of
%   the certificate.

certified(Component, Known, What) :-
    member(Member, Component),
    get_assoc(Member, Known.given_up, What),
    !.
certified(Component, Known, What) :-
    with_parts(Component, Known, Inside),
    findall(At-Sets, outside_call(Inside, Known, At, _, Sets), Calls),
    (   memberchk(At-[], Calls)
    ->  What = callee(At)
    ;   findall(At, ( member(At-Sets, Calls), \+ memberchk([], Sets) ), Ats),
        Ats \== [],
        What = unsure(Ats)
    ).

%   with_parts(+Keys, +Known, -Inside): the keys, and the parts of clauses that
%   they call, which are not the reader's.

with_parts(Keys, Known, Inside) :-
    findall(Part,
            ( outside_call(Keys, Known, _, Part, _), Part = part(_, _) ),
            Parts0),
    sort(Parts0, Parts),
    (   Parts == []
    ->  Inside = Keys
    ;   append(Keys, Parts, More),
        with_parts(More, Known, Inside)
    ).

outside_call(Component, Known, at(Number, GoalNumber), Callee, Sets) :-
    member(Key, Component),
    get_assoc(Key, Known.clauses, Clauses),
    get_assoc(Key, Known.numbers, First),
    nth0(I, Clauses, clause(_, Goals, _)),
    Number is First + I,
    nth1(GoalNumber, Goals, call(Callee, _)),
    Callee \== fail,
    \+ memberchk(Callee, Component),
    get_assoc(Callee, Known.modes, Sets).

shown_key(Key, Known, Shown) :-
    named_key(Key, Named),
    shown(Named, Known.source.module, Shown).

%!  shown(+Key, +Module, -Shown) is det.
%
%   Shown is Name/Arity for a predicate of Module, and Key for others.

shown(Module:PI, Module, PI) :- !.
shown(Key, _, Key).

%   given_up(+Facts, +ByName, -GivenUp): by key, what cti says of a component
%   that it gave up, under the component's first predicate.

given_up(Facts, ByName, GivenUp) :-
    findall(Key-Given,
            ( nth_fact(Facts, Rest, Fact),
              given(Fact, Rest, Predicate, Given),
              get_assoc(Predicate, ByName, Key) ),
            Pairs0),
    sort(1, @<, Pairs0, Pairs),
    list_to_assoc(Pairs, GivenUp).

nth_fact([Fact|Facts], Facts, Fact).
nth_fact([_|Facts], Rest, Fact) :-
    nth_fact(Facts, Rest, Fact).

given(none(Predicate, Count), Rest, Predicate, falls_not(Calls)) :-
    first_points(Count, Rest, Calls).
given(large(Predicate, Count), _, Predicate, given_up(large(Count))).
given(blown(Predicate, _), _, Predicate, given_up(blown)).

first_points(0, _, []) :- !.
first_points(Count, [Fact|Facts], Calls) :-
    (   Fact = point(Clause, Call, _, _)
    ->  Next is Count - 1,
        Calls = [at(Clause, Call)|More],
        first_points(Next, Facts, More)
    ;   first_points(Count, Facts, Calls)
    ).
first_points(_, [], []).
