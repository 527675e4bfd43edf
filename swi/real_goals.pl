:- module(real_goals,
          [ predicate_clauses/4,        % +Project, +Key, -Clauses, -Found
            pure_term/2,                % +Term, -Pure
            start_goals/1               % +Names
          ]).

/** <module> Real clauses as pure clauses that cover them

A pure clause is pure(Args, Body, Line). Its terms have the one constant `c`
for every atomic term but []. A body is built by (,)/2, (;)/2, `true`,
`fail`, (=)/2 and call(Key, Args).

A key names a predicate of the pure program:

  - Module:Name/Arity, a predicate of the file or of a library that is read;
  - special(Module:Name/Arity, Closures): the same with known closures,
    one for each argument, or `-` where the argument stays one;
  - directives, a predicate that calls what the file's directives call;
  - prelude(Name/Arity), one of the predicates at the end of this file.

What was found on the way is a list of need(Key) and note(Line, Doubt).
docs/real-files.md says for each doubt what is assumed.
*/

:- use_module(library(apply)).
:- use_module(library(assoc)).
:- use_module(library(lists)).
:- use_module(library(occurs)).
:- use_module(library(terms)).
:- use_module(library(varnumbers)).
:- use_module(library(yall)).
:- use_module(file_doubts, [leaves_waiting/1]).
:- use_module(real_builtins).
:- use_module(real_modules).
:- use_module(real_source).
:- use_module(trust, [is_trusted/5]).

:- dynamic constant_copy/2, arity_is_name/0.

%!  start_goals(+Names) is det.
%
%   Forgets what was made for another program. Names is `arities` where
%   get_assoc/3 is called, and else `names`. Since that looks at the name of no
%   term, all compound terms of four arguments then have one name, and so have
%   all of five, and all of more.

start_goals(Names) :-
    retractall(constant_copy(_, _)),
    retractall(arity_is_name),
    (   Names == arities
    ->  assertz(arity_is_name)
    ;   true
    ).

%!  predicate_clauses(+Project:dict, +Key, -Clauses, -Found) is det.

predicate_clauses(Project, directives, Clauses, Found) :-
    !,
    phrase(directives_of(Project.sources, Project, Clauses), Found).
predicate_clauses(_, prelude(Name/Arity), Clauses, Found) :-
    !,
    findall(pure(Args, Body, 0),
            ( prelude(Head, Body), functor(Head, Name, Arity), Head =.. [_|Args] ),
            Clauses),
    findall(need(Key), ( member(pure(_, Body, _), Clauses), called(Body, Key) ), Found).
predicate_clauses(Project, special(Predicate, Closures), Clauses, Found) :-
    !,
    defining_sources(Project, Predicate, [Source]),
    source_clauses(Source, Predicate, Real),
    phrase(( doubts_of_file(Project, Source),
             notes_of_adding(Project, Source, Real),
             special_clauses(Real, Closures, Project, Source, Predicate, Clauses) ),
           Found).
predicate_clauses(Project, Predicate, Clauses, Found) :-
    defining_sources(Project, Predicate, Sources),
    phrase(clauses_in_sources(Sources, Project, Predicate, Clauses0), Found),
    (   member(Source, Sources),
        comes_and_goes(Source, Predicate)
    ->  general_clause(Predicate, General),
        append(Clauses0, [General], Clauses)
    ;   Clauses = Clauses0
    ).

clauses_in_sources([], _, _, []) --> [].
clauses_in_sources([Source|Sources], Project, Predicate, Clauses) -->
    { source_clauses(Source, Predicate, Real) },
    doubts_of_file(Project, Source),
    doubts_of(Source, Project, Predicate, Real),
    pure_clauses(Real, Project, Source, Predicate, Clauses0),
    joining_clauses(Project, Source, Predicate, Real, Joining),
    clauses_in_sources(Sources, Project, Predicate, Clauses1),
    { append([Clauses0, Joining, Clauses1], Clauses) }.

%   What is doubted of a file concerns each of its predicates. It is always
%   assumed that another file leaves nothing behind when it is loaded.

doubts_of_file(Project, Source) -->
    { is_root(Project, Source)
    ->  Doubts = Source.doubts
    ;   exclude(leaves_behind, Source.doubts, Doubts) },
    file_notes(Doubts).

leaves_behind(doubt(_, Doubt)) :-
    memberchk(Doubt, [lasting(_), hook(_), flag(_), libraries]).

file_notes([]) --> [].
file_notes([doubt(Line, Doubt)|Doubts]) -->
    [note(Line, file(Doubt))],
    file_notes(Doubts).

%   Directives: what they call may leave something behind, so what is not
%   known of it is said of each.

directives_of([], _, []) --> [].
directives_of([Source|Sources], Project, Clauses) -->
    directive_clauses(Source.directives, Project, Source, Clauses0),
    directives_of(Sources, Project, Clauses1),
    { append(Clauses0, Clauses1, Clauses) }.

directive_clauses([], _, _, []) --> [].
directive_clauses([directive(Line, Module, Goal)|Directives], Project, Source, [pure([], Pure, Line)|Clauses]) -->
    { context(Project, Source, Module, Line, Context0),
      Context = Context0.put(directive, yes),
      phrase(goal(Goal, Context, Pure), Found0),
      maplist(said_of_directive, Found0, Found) },
    Found,
    directive_clauses(Directives, Project, Source, Clauses).

said_of_directive(note(Line, Doubt), note(Line, directive(Doubt))) :- !.
said_of_directive(Found, Found).

context(Project, Source, Module, Line,
        context{project:Project, source:Source, module:Module, line:Line, numbers:[], inputs:[], directive:no,
                closure:no}).

%   What tabling calls to join the answers of a predicate.

joining_clauses(Project, Source, Predicate, Real, Clauses) -->
    { Predicate = Module:_,
      findall(Goal, member(Predicate-Goal, Source.joins), Goals),
      first_line(Real, Line),
      context(Project, Source, Module, Line, Context) },
    goal_clauses(Goals, Predicate, Context, Clauses).

goal_clauses([], _, _, []) --> [].
goal_clauses([Goal|Goals], Predicate, Context, [pure(Args, Pure, Context.line)|Clauses]) -->
    { general_clause(Predicate, pure(Args, true, _)) },
    covering((find(goal(Goal)), goal(fail)), Context, Pure),
    goal_clauses(Goals, Predicate, Context, Clauses).

called((A, B), Key) :-
    (   called(A, Key)
    ;   called(B, Key)
    ).
called((A ; B), Key) :-
    (   called(A, Key)
    ;   called(B, Key)
    ).
called(call(Key, _), Key).

comes_and_goes(Source, Predicate) :-
    (   memberchk(Predicate, Source.dynamic)
    ->  true
    ;   memberchk(Predicate, Source.multifile)
    ).

general_clause(_:_/Arity, pure(Args, true, 0)) :-
    length(Args, Arity).

%   What is doubted of a predicate as a whole.

doubts_of(Source, Project, Predicate, Real) -->
    { first_line(Real, Line) },
    doubt_if(clashes_with_library(Source, Predicate), Line, imported),
    doubt_if(( memberchk(Predicate, Source.multifile), \+ is_hook(Predicate) ), Line, multifile),
    doubt_if(memberchk(Predicate, Source.conditional), Line, conditional),
    doubt_if(( memberchk(Predicate-moded, Source.tabled)
             ; memberchk(Predicate-_, Source.tabled), memberchk(tabling, Source.flags) ), Line, tabled),
    doubt_if(imported_by_name(Source, Predicate), Line, imported),
    doubt_if(( memberchk(Predicate, Source.transparent), has_context(Real) ), Line, transparent),
    doubt_if(( memberchk(Predicate, Source.dynamic), adds_unknown(Project, Source) ), Line, adds),
    notes_of_adding(Project, Source, Real).

notes_of_adding(Project, Source, Real) -->
    (   { is_root(Project, Source) }
    ->  []
    ;   adding_notes(Real, Source.adds)
    ).

%   A root, or the file itself, adds clauses that are not known. Another file
%   may add some where a clause of it does.

adds_unknown(Project, Source) :-
    (   Source.adds \== []
    ->  true
    ;   root_source(Project, Root),
        Root.adds \== []
    ->  true
    ).

is_root(Project, Source) :-
    root_source(Project, Root),
    Root.path == Source.path,
    !.

adding_notes([], _) --> [].
adding_notes([clause(Line, _, _)|Real], Adds) -->
    doubt_if(memberchk(doubt(Line, asserts), Adds), Line, adding),
    adding_notes(Real, Adds).

%   The file has clauses for a predicate of a library, which has its own.

clashes_with_library(Source, Module:PI) :-
    Module \== Source.module,
    \+ memberchk(Module:PI, Source.multifile),
    is_library_module(Module).

doubt_if(Condition, Line, Doubt) -->
    (   { call(Condition) }
    ->  [note(Line, Doubt)]
    ;   []
    ).

first_line([], 0).
first_line([clause(Line, _, _)|_], Line).

%   A clause has a goal that takes what it calls, or changes, from the module
%   in which it runs.

has_context(Real) :-
    member(clause(_, _, Body), Real),
    sub_term(Goal, Body),
    callable(Goal),
    \+ ( compound(Goal), compound_name_arity(Goal, _, 0) ),
    \+ memberchk(Goal, [(_, _), (_ ; _), (_ -> _), (_ *-> _), \+ _, strip_module(_, _, _), context_module(_)]),
    predicate_property(system:Goal, transparent),
    !.

%   The file imports a predicate of that name, and then its own clauses may be
%   refused.

imported_by_name(Source, Module:PI) :-
    Module == Source.module,
    member(import(_, _, Selection), Source.imports),
    is_list(Selection),
    selected(Selection, [], PI, _),
    !.

pure_clauses(Real, Project, Source, Predicate, Clauses) -->
    { read_places(Real, Places) },
    pure_clauses(Real, Places, Project, Source, Predicate, Clauses).

pure_clauses([], _, _, _, _, []) --> [].
pure_clauses([clause(Line, Head, Body)|Real], Places, Project, Source, Module:PI, [pure(Args, Pure, Line)|Clauses]) -->
    { Head =.. [_|Args0],
      maplist(pure_term, Args0, Args),
      context(Project, Source, Module, Line, Context0),
      maplist(argument_of(Args0), Places, Inputs),
      Context = Context0.put(inputs, Inputs) },
    body(Body, Context, Pure),
    pure_clauses(Real, Places, Project, Source, Module:PI, Clauses).

argument_of(Args, I, Arg) :-
    nth1(I, Args, Arg).

%   read_places(+Real, -Places): the arguments that one clause makes as a text,
%   and that another one uses in its body otherwise.

read_places(Real, Places) :-
    findall(I,
            ( member(clause(_, Head, Body), Real),
              compound(Head),
              arg(I, Head, Arg),
              var(Arg),
              made_as_text(Body, Arg) ),
            Made0),
    sort(Made0, Made),
    include(is_read(Real), Made, Places).

made_as_text(Body, Arg) :-
    sub_term(Sink, Body),
    compound(Sink),
    text_sink(Sink, Text),
    Text == Arg,
    !.

text_sink(codes(Text), Text).
text_sink(codes(Text, _), Text).
text_sink(chars(Text), Text).
text_sink(chars(Text, _), Text).

is_read(Real, I) :-
    member(clause(_, Head, Body), Real),
    arg(I, Head, Arg),
    (   nonvar(Arg)
    ->  true
    ;   \+ made_as_text(Body, Arg),
        sub_term(Sub, Body),
        Sub == Arg
    ),
    !.

%   A fact has no body to rewrite.

body(Body, Context, Pure) -->
    (   { Body == true }
    ->  { Pure = true }
    ;   goal(Body, Context, Pure)
    ).


%   Predicates with known closures: the clauses with the closures in the
%   heads' variables, whose arguments are the others' and the closures'
%   variables. Where an argument is constant(C), the clauses are those that
%   take C there. A closure that waits for arguments is '$closure'(Module, Term),
%   which real_source lets stand in no file.

special_clauses([], _, _, _, _, []) --> [].
special_clauses([Real|Rest], Closures, Project, Source, Predicate, Clauses) -->
    (   { copy_term_nat(Real, clause(Line, Head, Body)),
          Head =.. [_|Args0],
          fresh_closures(Closures, Fresh, Variables),
          bind_closures(Fresh, Args0, Args1) }
    ->  { append(Args1, Variables, Args2),
          maplist(pure_term, Args2, Args),
          Predicate = Module:_,
          context(Project, Source, Module, Line, Context),
          Clauses = [pure(Args, Pure, Line)|More] },
        body(Body, Context, Pure)
    ;   { Clauses = More }
    ),
    special_clauses(Rest, Closures, Project, Source, Predicate, More).

%   Closures are kept with '$VAR'(I) for their variables, in order.

fresh_closures(Closures, Fresh, Variables) :-
    varnumbers(Closures, Fresh),
    term_variables(Fresh, Variables).

bind_closures([], [], []).
bind_closures([-|Cs], [A|As], [A|Bs]) :-
    !,
    bind_closures(Cs, As, Bs).
bind_closures([constant(C)|Cs], [C|As], Bs) :-
    !,
    bind_closures(Cs, As, Bs).
bind_closures(['$closure'(M, C)|Cs], ['$closure'(M, C)|As], Bs) :-
    bind_closures(Cs, As, Bs).


%   goal(+Goal, +Context, -Pure)// emits what is found.

goal(G, Context, true) -->
    { var(G) },
    !,
    note(Context, goal).
goal('$closure'(M, G), Context, P) -->
    !,
    goal(M:G, Context, P).
goal(M:G, Context, P) -->
    !,
    (   { atom(M), nonvar(G) }
    ->  goal_in(M, G, Context, P)
    ;   { P = true },
        note(Context, goal)
    ).
goal(G, _, fail) -->
    { \+ callable(G) },
    !.
goal(G, Context, P) -->
    { compound(G),
      compound_name_arity(G, Name, 0) },
    !,
    goal(Name, Context, P).
goal(G, Context, P) -->
    rewritten_goal(G, Context),
    plain_goal(G, Context, P).

plain_goal(true, _, true) --> !.
plain_goal(!, _, true) --> !.
plain_goal((A, B), Context, P) -->
    !,
    goal(A, Context, PA),
    { numbers_after(A, Context, Context1) },
    goal(B, Context1, PB),
    { both(PA, PB, P) }.
plain_goal((A ; B), Context, P) -->
    !,
    branch(A, Context, PA),
    goal(B, Context, PB),
    { either(PA, PB, P) }.
plain_goal('|'(A, B), Context, P) -->
    !,
    plain_goal((A ; B), Context, P).
plain_goal((A -> B), Context, P) -->
    !,
    plain_goal((A, B), Context, P).
plain_goal((A *-> B), Context, P) -->
    !,
    plain_goal((A, B), Context, P).
plain_goal(@(G, M), Context, P) -->
    !,
    (   { M == Context.module }
    ->  []
    ;   note(Context, goal)              % its closures are of another module
    ),
    goal(G, Context, P).
plain_goal(G, Context, P) -->
    { resolved(G, Context, Where) },
    (   { trusted_call(Where, Context, Trust) }
    ->  { P = true },
        note(Context, trusted(Trust))
    ;   { Context.directive == yes, Where \= own(_) }
    ->  directive_goal(G, Where, Context, P)
    ;   { may_be_undefined(Where, G, Context, Elsewhere) }
    ->  goal_of(Where, G, Context, P0),
        goal_of(Elsewhere, G, Context, P1),
        { either(P0, P1, P) }
    ;   { shadowing(Where, G, Context, Predicate) }
    ->  goal_of(Where, G, Context, P0),
        goal_of(own(Predicate), G, Context, P1),
        { either(P0, P1, P) }
    ;   goal_of(Where, G, Context, P)
    ).

%   The author vouches for what is called: its clauses are not looked at.

trusted_call(Where, Context, Trust) :-
    get_dict(trusts, Context.project, Trusts),
    Trusts \== [],
    called_predicate(Where, Predicate),
    is_trusted(Predicate, Context.module, Trusts, Context.project, Trust).

called_predicate(own(Predicate), Predicate).
called_predicate(exported(_, Predicate), Predicate).
called_predicate(autoloaded(_, Predicate), Predicate).
called_predicate(unknown(Predicate), Predicate).

%   may_be_undefined(+Where, +Goal, +Context, -Elsewhere): where the file's own
%   predicate is not defined yet, or no longer, one of SWI-Prolog's is called.

may_be_undefined(own(Predicate), G, Context, Elsewhere) :-
    (   memberchk(Predicate, Context.source.uncertain)
    ->  true
    ;   memberchk(any, Context.source.uncertain)
    ),
    functor(G, Name, Arity),
    (   sees_imports(Context),
        import_of(Context.source, Name/Arity, Import)
    ->  import_where(Import, Elsewhere)
    ;   of_the_system(G, Name/Arity, Elsewhere)
    ).

%   shadowing(+Where, +Goal, +Context, -Predicate): the file has clauses for a
%   predicate of the module system, which are refused unless it is redefined.

shadowing(builtin, G, Context, system:Name/Arity) :-
    Context.module \== system,
    functor(G, Name, Arity),
    is_defined_in(Context.project, system:Name/Arity),
    \+ is_kept(G, Context).

directive_goal(G, Where, Context, P) -->
    (   { is_harmless_directive(G),
          \+ ( Where = unknown(M:_), M \== none ) }
    ->  { P = true }
    ;   { G = initialization(G1) ; G = initialization(G1, _) }
    ->  goal(G1, Context, P)
    ;   goal_of(Where, G, Context, P)
    ).

branch(A, Context, P) -->
    { nonvar(A), ( A = (C -> T) ; A = (C *-> T) ) },
    !,
    rewritten_goal(A, Context),
    plain_goal((C, T), Context, P).
branch(A, Context, P) -->
    goal(A, Context, P).

both(fail, _, fail) :- !.
both(true, P, P) :- !.
both(P, true, P) :- !.
both(P, Q, (P, Q)).

either(fail, P, P) :- !.
either(P, fail, P) :- !.
either(P, Q, P) :-
    P == true,
    Q == true,
    !.
either(P, Q, (P ; Q)).

note(Context, Doubt) -->
    [note(Context.line, Doubt)].

%   A goal that the file rewrites when it is loaded.

rewritten_goal(G, Context) -->
    (   { Context.directive == yes, is_harmless_directive(G) }
    ->  []
    ;   { member(expansion(goal, Pattern), Context.source.expansions),
          \+ G \= Pattern }
    ->  note(Context, rewritten)
    ;   []
    ).

%   Variables that hold numbers after a goal, whose name no file can take.

numbers_after(G, Context0, Context) :-
    (   nonvar(G), number_result(G, V), var(V), is_kept(G, Context0)
    ->  Context = Context0.put(numbers, [V|Context0.numbers])
    ;   nonvar(G), G = must_be(Type, V), var(V), nonvar(Type),
        memberchk(Type, [integer, nonneg, positive_integer]),
        resolved(G, Context0, Where),
        ( Where = exported(_, error:_) ; Where = autoloaded(_, error:_) )
    ->  Context = Context0.put(numbers, [V|Context0.numbers])
    ;   Context = Context0
    ).

number_result(V is _, V).
number_result(integer(V), V).
number_result(length(_, V), V).
number_result(atom_length(_, V), V).
number_result(functor(_, _, V), V).

%   A goal in another module.

goal_in(M, G, Context, P) -->
    { M == Context.module },
    !,
    goal(G, Context, P).
goal_in(M, G, Context, P) -->
    { module_source(Context, M, Source) },
    !,
    goal(G, Context.put(_{module:M, source:Source}), P).
goal_in(M, G, Context, P) -->
    goal(G, Context.put(module, M), P).


%   declaring_source(+Predicate, +Context, -Source): one that defines Predicate,
%   and declares its meta-arguments if one does.

declaring_source(Predicate, Context, Source) :-
    defining_sources(Context.project, Predicate, Sources),
    (   member(Source, Sources),
        memberchk(Predicate-_, Source.meta)
    ->  true
    ;   Sources = [Source|_]
    ).

%   resolved(+Goal, +Context, -Where): own(Predicate), builtin,
%   exported(Path, Predicate) for one of another file, autoloaded(Path,
%   Predicate) for one of the library that is loaded when it is called, or
%   unknown(PI).

resolved(G, Context, Where) :-
    functor(G, Name, Arity),
    PI = Name/Arity,
    (   is_kept(G, Context)
    ->  Where = builtin
    ;   own_module(Context, M),
        is_defined_here(Context, M:PI)
    ->  Where = own(M:PI)
    ;   resolved_elsewhere(G, PI, Context, Where)
    ).

%   resolved_elsewhere(+Goal, +PI, +Context, -Where): where the module of the
%   goal does not define it.

resolved_elsewhere(G, PI, Context, Where) :-
    (   Context.module == system
    ->  Where = builtin
    ;   \+ knows_module(Context)
    ->  Where = unknown(Context.module:PI)
    ;   sees_imports(Context),
        import_of(Context.source, PI, Import)
    ->  import_where(Import, Where)
    ;   inherits_user(Context),
        of_user(Context, PI, Found)
    ->  Where = Found
    ;   of_the_system(G, PI, Where)
    ->  true
    ;   own_name(PI, Context, Own),
        Where = unknown(Own)
    ).

of_the_system(G, PI, Where) :-
    (   predicate_property(system:G, built_in)
    ->  Where = builtin
    ;   index(PI, Module, Path)
    ->  Where = autoloaded(Path, Module:PI)
    ).

is_defined_here(Context, Predicate) :-
    (   is_defined(Context.source, Predicate)
    ->  true
    ;   is_defined_in(Context.project, Predicate)
    ).

%   The library's modules inherit nothing from user, unless they are looked at
%   as files.

inherits_user(Context) :-
    (   \+ is_library_file(Context.source.path)
    ->  true
    ;   is_root(Context.project, Context.source)
    ).

of_user(Context, PI, Where) :-
    (   is_defined_in(Context.project, user:PI)
    ->  Where = own(user:PI)
    ;   root_source(Context.project, Source),
        Source.module == user,
        import_of(Source, PI, Import)
    ->  import_where(Import, Where)
    ).

own_name(PI, Context, Own) :-
    (   is_root(Context.project, Context.source)
    ->  Own = PI
    ;   Own = Context.module:PI
    ).

%   is_kept(+Goal, +Context): Goal is built in, and the file does not redefine
%   it.

is_kept(G, Context) :-
    is_protected(G),
    functor(G, Name, Arity),
    \+ ( member(M, [Context.module, user]), memberchk(M:Name/Arity, Context.source.redefined) ).

%   Where the clauses of a call may be: its module, and the module of the file
%   for a unit of tests. From user, modules inherit what they do not import.

own_module(Context, M) :-
    M = Context.module.
own_module(Context, M) :-
    atom_concat(plunit_, _, Context.module),
    M = Context.source.module.

sees_imports(Context) :-
    (   Context.module == Context.source.module
    ->  true
    ;   atom_concat(plunit_, _, Context.module)
    ).

knows_module(Context) :-
    (   sees_imports(Context)
    ->  true
    ;   Context.module == user
    ).

import_where(imported(Path, Module:PI), Where) :-
    (   Module \== none,
        atom(Path),
        Path \== none
    ->  Where = exported(Path, Module:PI)
    ;   Where = unknown(Module:PI)
    ).


%   goal_of(+Where, +Goal, +Context, -Pure)//

goal_of(own(Predicate), G, Context, P) -->
    (   { declaring_source(Predicate, Context, Source) }
    ->  call_of(Predicate, Source, G, Context, P)
    ;   { P = true },
        note(Context, external(Predicate))
    ).
goal_of(builtin, G, Context, P) -->
    builtin(system, G, Context, P).
goal_of(autoloaded(Path, Module:PI), G, Context, P) -->
    (   { inherits_user(Context), adds_unknown(Context.project, Context.source) }   % a clause may be of that name
    ->  note(Context, shadows(PI))
    ;   []
    ),
    goal_of(exported(Path, Module:PI), G, Context, P).
goal_of(exported(Path, Module:Name/Arity), G0, Context, P) -->
    { G0 =.. [_|Args],
      G =.. [Name|Args] },
    later_note(Module, Name/Arity, Context),
    (   { root_source(Context.project, Own),
          is_defined(Own, Module:Name/Arity),
          Own.path \== Path }
    ->  note(Context, imported),
        call_of(Module:Name/Arity, Own, G, Context, P)
    ;   { is_library_file(Path),
          known(Module, G) }
    ->  builtin(Module, G, Context, P)
    ;   { exported_source(Context.project, Path, Module:Name/Arity, Real, Source) }
    ->  { Real = _:RealName/_,
          RealGoal =.. [RealName|Args] },
        call_of(Real, Source, RealGoal, Context, P)
    ;   { P = true },
        note(Context, external(Module:Name/Arity))
    ).
goal_of(unknown(PI), _, Context, true) -->
    note(Context, external(PI)).

later_note(Where, Name/Arity, Context) -->
    (   { runs_later(Where, Name/Arity) }
    ->  note(Context, lasting(Name))
    ;   []
    ).

known(Where, G) :-
    (   never_succeeds(Where, G)
    ;   rewritten(Where, G, _)
    ;   results(Where, G, _)
    ;   is_quiet(Where, G)
    ),
    !.

builtin(Where, G, Context, fail) -->
    { never_succeeds(Where, G) },
    !,
    halt_note(G, Context),
    hook_calls(G, Context, _).
builtin(system, G, Context, P) -->
    { G =.. [call, C|Xs],
      Xs = [_|_] },
    !,
    applied(C, Xs, Context, P).
builtin(system, length(_, N), Context, true) -->
    { var(N),
      member(V, Context.numbers),
      V == N },
    !.                                  % it ends, whatever the list is
builtin(system, between(L, H, X), Context, P) -->
    !,
    between_goal(L, H, X, Context, P).
builtin(Where, G, Context, P) -->
    { rewritten(Where, G, Covering) },
    !,
    covering(Covering, Context, P).
builtin(system, G, Context, true) -->
    { functor(G, Name, Arity),
      risk(Name/Arity, Risk) },
    !,
    note(Context, risk(Risk, Name/Arity)),
    (   { Risk == imports, \+ names_import(G) }
    ->  note(Context, lasting(Name))
    ;   []
    ).
builtin(Where, G, Context, P) -->
    { results(Where, G, Xs) ; is_quiet(Where, G), Xs = [] },
    !,
    text_note(G, Context),
    function_note(G, Context),
    halt_note(G, Context),
    term_note(Where, G, Context),
    module_note(Where, G, Context),
    (   { Where == system, adds_unknown_clause(G, Context.module) }
    ->  note(Context, asserts)
    ;   { Where == system, Context.closure == yes, sets_reading_flag(G) }
    ->  note(Context, flags)            % real_source finds those that stand in the text
    ;   []
    ),
    hook_calls(G, Context, P0),
    listed_options(G, Context, P1),
    { foldl(result, Xs, true, P2),
      both(P0, P1, P01),
      both(P01, P2, P) }.
builtin(_, G, Context, true) -->
    { functor(G, Name, Arity) },
    note(Context, external(system:Name/Arity)),
    (   { declares_what_it_names(Name/Arity),
          arg(1, G, Specs),
          var(Specs) }                  % what is declared does not stand in the text
    ->  note(Context, lasting(Name))
    ;   []
    ).

sets_reading_flag(G) :-
    (   G = set_prolog_flag(Flag0, _)
    ;   G = create_prolog_flag(Flag0, _, _)
    ),
    strip_module(Flag0, _, Flag),
    flag_kind(Flag, Kind),
    memberchk(Kind, [any, reading]).

%   What is imported for good, and from where, stands in the text.

names_import(import(Import)) :-
    ground(Import).
names_import(add_import_module(Module, _, _)) :-
    atom(Module).
names_import(set_base_module(_)).

result(X, P0, P) :-
    pure_term(X, Y),
    (   var(Y)
    ->  both(P0, Y = c, P)
    ;   Y == c
    ->  P = P0
    ;   P = fail
    ).

between_goal(L, H, X, Context, P) -->
    (   { H == inf ; H == infinite }
    ->  covering((prelude(repeat), result(X)), Context, P)
    ;   covering((result(L), result(H), result(X)), Context, P),
        (   { nonvar(H)
            ; member(V, Context.numbers), V == H }
        ->  []
        ;   note(Context, bound)
        )
    ).

%   A text of format/2 that is not known may hold ~@, which runs a goal, or ~W,
%   whose options may hold one.

text_note(G, Context) -->
    (   { format_text(G, Text) }
    ->  (   { plain_text(Text),
              \+ ( prints_message(G), mentions(Context, '~@') ) }
        ->  []
        ;   { format_options(G, Text, Options) }
        ->  find_options(Options, Context)
        ;   note(Context, text)
        )
    ;   []
    ),
    (   { has_letters(Context),
          ( format_text(G, _) ; prints(G) ) }
    ->  note(Context, letter)
    ;   []
    ).

has_letters(Context) :-
    concerned_source(Context, Source),
    Source.letters == yes,
    !.

mentions(Context, Name) :-
    concerned_source(Context, Source),
    memberchk(Name, Source.mentions),
    !.

sets_flag(Context, Kind) :-
    concerned_source(Context, Source),
    memberchk(Kind, Source.flags),
    !.

%   What the whole program does concerns each of its texts.

concerned_source(Context, Source) :-
    (   Source = Context.source
    ;   root_source(Context.project, Source)
    ).

%   format_options(+Goal, +Text, -Options): the options of each ~W, where the
%   text has no ~@. If they hold goals, these are not searched.

format_options(G, Text, Options) :-
    functor(G, Name, Arity),
    memberchk(Name/Arity, [format/2, format/3, debug/3, ansi_format/3]),
    arg(Arity, G, Arguments),
    text_codes(Text, Codes),
    options_in_text(Codes, Arguments, Options).

find_options([], _) --> [].
find_options([Options|More], Context) -->
    options(Options, Context, P),
    (   { P == true }
    ->  []
    ;   note(Context, text)
    ),
    find_options(More, Context).

format_text(format(Text), Text).
format_text(format(Text, _), Text).
format_text(format(_, Text, _), Text).
format_text(debug(_, Text, _), Text).
format_text(ansi_format(_, Text, _), Text).
format_text(print_message(_, Message), Text) :-
    message_text(Message, Text).
format_text(message_to_string(Message, _), Text) :-
    message_text(Message, Text).
format_text(print_message_lines(_, _, Lines), Text) :-
    (   ground(Lines),
        \+ ( sub_term(Sub, Lines), atomic(Sub), \+ plain_text(Sub), \+ number(Sub), Sub \== [] )
    ->  Text = ''
    ;   true
    ).

%   The lines of a message may be made by the file, with any text in it.

prints_message(print_message(_, _)).
prints_message(message_to_string(_, _)).

%   message_text(+Message, -Text): a text that the message has. Messages for
%   errors and for goals that failed may have one within.

message_text(Message, Text) :-
    (   var(Message)
    ->  true
    ;   sub_term(Sub, Message),
        nonvar(Sub),
        Sub = format(Text0, _),
        \+ plain_text(Text0)
    ->  Text = Text0
    ;   Message = error(Formal, _),
        var(Formal)
    ->  true
    ;   Text = ''
    ).

%   plain_text(+Text): no letter of the text runs a goal.

plain_text(Text) :-
    text_codes(Text, Codes),
    \+ runs_goal(Codes).

text_codes(Text, Codes) :-
    (   atom(Text)
    ;   string(Text)
    ),
    !,
    string_codes(Text, Codes).
text_codes(Text, Codes) :-
    is_list(Text),
    ground(Text),
    catch(text_to_string(Text, String), _, fail),
    string_codes(String, Codes).

%   Goals of at_halt/1 run where the system halts, also for an error's message.

halt_note(G, Context) -->
    (   { memberchk(G, [halt, halt(_), print_message(_, _)]),
          member(Name, [at_halt, thread_at_exit, prolog_at_thread_exit]),
          mentions(Context, Name) }
    ->  note(Context, halts)
    ;   []
    ).

%   Terms that are read run the syntaxes of quasi quotations, and terms that
%   were kept may have goals that wait for their variables.

term_note(Where, G, Context) -->
    { functor(G, Name, Arity) },
    (   { reads_terms(Where, Name/Arity),
          mentions(Context, quasi_quotation_syntax) }
    ->  note(Context, quasi)
    ;   { Where == system,
          keeps_terms(Name/Arity),
          concerned_source(Context, Concerned),
          member(Waiting, Concerned.mentions),
          leaves_waiting(Waiting) }
    ->  note(Context, kept(Name/Arity))
    ;   []
    ).

%   A module that inherits from another one than user.

module_note(Where, G, Context) -->
    (   { Where == system,
          G = set_module(Property0),
          strip_module(Property0, _, Property),
          \+ Property \= base(_) }
    ->  note(Context, lasting(set_module))
    ;   []
    ).

%   The goals of options. Where they are not all known, one may hold a goal.

listed_options(G, Context, P) -->
    (   { option_list(G, Options) }
    ->  options(Options, Context, P)
    ;   { P = true }
    ),
    (   { sets_flag(Context, printing), ( prints(G) ; writes(G) ) }
    ->  note(Context, options)
    ;   []
    ).

prints(G) :-
    functor(G, Name, Arity),
    hooks(Name/Arity, Hooks),
    memberchk(user:portray/1, Hooks),
    !.

%   What asks the flag write_attributes alone.

writes(G) :-
    functor(G, Name, _),
    memberchk(Name, [write, writeq]).

options(Options0, Context, P) -->
    { nonvar(Options0) },
    (   { Options0 = M:Options, atom(M) }
    ->  !,
        options(Options, Context.put(module, M), P)
    ;   { is_list(Options0) },
        !,
        options_in(Options0, Context, P)
    ).
options(_, Context, true) -->
    note(Context, options).

options_in([], _, true) --> [].
options_in([Option|Options], Context, P) -->
    (   { nonvar(Option), \+ ( Option = (Name=_), \+ atom(Name) ) }
    ->  { option_term(Option, Term),
          (   option_goal(Term, G)
          ->  P0 = find(goal(G))
          ;   P0 = true
          ) },
        covering(P0, Context, P1)
    ;   { P1 = true },
        note(Context, options)
    ),
    options_in(Options, Context, P2),
    { both(P1, P2, P) }.

option_term(Option, Term) :-
    (   Option = (Name=Value)
    ->  Term =.. [Name, Value]
    ;   Term = Option
    ).

%   Arithmetic with functions that the file defines.

function_note(G, Context) -->
    (   { functor(G, Name, Arity),
          memberchk(Name/Arity, [(is)/2, (<)/2, (>)/2, (=<)/2, (>=)/2, (=:=)/2, (=\=)/2]),
          sub_term(Sub, G),
          callable(Sub),
          \+ ( compound(Sub), compound_name_arity(Sub, _, 0) ),
          functor(Sub, F, A),
          memberchk(F/A, Context.source.arithmetic) }
    ->  note(Context, function)
    ;   []
    ).

%   Hooks of the file that a built-in predicate may call.

hook_calls(G, Context, P) -->
    { functor(G, Name, Arity) },
    (   { hooks(Name/Arity, Hooks),
          findall(Hook, ( member(Pattern, Hooks), defined_hook(Pattern, Context.project, Hook) ), Own),
          Own = [_|_] }
    ->  hooks_called(Own, P)
    ;   { P = true }
    ).

%   A hook of any module is written with a variable.

defined_hook(Module:PI, Project, Module:PI) :-
    (   nonvar(Module)
    ->  is_defined_in(Project, Module:PI)
    ;   root_source(Project, Source),
        assoc_to_keys(Source.clauses, Keys),
        member(Module:PI, Keys)
    ).

hooks_called([], true) --> [].
hooks_called([Hook|Hooks], P) -->
    { Hook = _:_/Arity,
      length(Args, Arity),
      either((call(Hook, Args), fail), true, P0) },
    [need(Hook)],
    hooks_called(Hooks, P1),
    { both(P0, P1, P) }.

%   covering(+Covering, +Context, -Pure)//: see real_builtins:rewritten/3.

covering(true, _, true) --> [].
covering((A, B), Context, P) -->
    covering(A, Context, PA),
    covering(B, Context, PB),
    { both(PA, PB, P) }.
covering((A ; B), Context, P) -->
    covering(A, Context, PA),
    covering(B, Context, PB),
    { either(PA, PB, P) }.
covering(A = B, _, PA = PB) -->
    { pure_term(A, PA),
      pure_term(B, PB) }.
covering(result(X), _, P) -->
    { result(X, true, P) }.
covering(goal(G), Context, P) -->
    goal(G, Context, P).
covering(hooks(G), Context, P) -->
    hook_calls(G, Context, P).
covering(options(Options), Context, P) -->
    options(Options, Context, P).
covering(find(R), Context, P) -->
    covering(R, Context, P0),
    { both(P0, fail, P1),
      (   P0 == true
      ->  P = true
      ;   either(P1, true, P)
      ) }.
covering(text(L, T), Context, P) -->
    (   { member(Input, Context.inputs), Input == L }
    ->  covering(prelude(text(L, T)), Context, P)
    ;   { P = true }
    ).
covering(prelude(G), _, call(prelude(Name/Arity), Pure)) -->
    { functor(G, Name, Arity),
      G =.. [_|Args],
      maplist(pure_term, Args, Pure) },
    [need(prelude(Name/Arity))].


%   applied(+Closure, +Arguments, +Context, -Pure)//: call/N.

applied(C, _, Context, true) -->
    { var(C) },
    !,
    note(Context, goal).
applied('$closure'(M, C), Xs, Context, P) -->
    !,
    { qualified(M, C, Closure) },
    applied(Closure, Xs, Context, P).
applied(M:C, Xs, Context, P) -->
    { atom(M), nonvar(C) },
    !,
    (   { lambda_term(C) }
    ->  lambda(C, Xs, M, Context, P)
    ;   { with_arguments(C, Xs, G) }
    ->  goal_in(M, G, Context.put(closure, yes), P)
    ;   { P = true },
        note(Context, goal)
    ).
applied(C, Xs, Context, P) -->
    { qualified(Context.module, C, Closure) },
    (   { Closure = M:C1, atom(M), nonvar(C1) }
    ->  applied(M:C1, Xs, Context, P)
    ;   { P = true },
        note(Context, goal)
    ).

qualified(M, C, Closure) :-
    (   nonvar(C), C = _:_
    ->  Closure = C
    ;   Closure = M:C
    ).

with_arguments(C, Xs, G) :-
    (   compound(C)
    ->  compound_name_arguments(C, Name, Args0)
    ;   Name = C, Args0 = []
    ),
    atom(Name),
    append(Args0, Xs, Args),
    G =.. [Name|Args].

%   A lambda expression of library(yall) is copied for each call, but for
%   the variables in braces. So all others are new ones.

lambda_term(_>>_).
lambda_term(Free/_) :-
    nonvar(Free),
    memberchk(Free, [{}, {_}]).

lambda(Lambda, Xs, M, Context, P) -->
    { copied_lambda(Lambda, Parameters, Body),
      applied_parameters(Parameters, Xs, Rest, Unifiers),
      pure_unifiers(Unifiers, P0) },
    !,
    (   { Rest == [] }
    ->  goal('$closure'(M, Body), Context, P1)
    ;   applied('$closure'(M, Body), Rest, Context, P1)
    ),
    { both(P0, P1, P) }.
lambda(_, _, _, Context, true) -->
    note(Context, goal).

copied_lambda(Parameters0>>Body0, Parameters, Body) :-
    nonvar(Parameters0),
    (   Parameters0 = Free/_
    ->  copy_term_nat(Free+Parameters0+Body0, Free+(_/Parameters)+Body)
    ;   copy_term_nat(Parameters0+Body0, Parameters+Body)
    ),
    is_list(Parameters).
copied_lambda(Free/Body0, [], Body) :-
    copy_term_nat(Free+Body0, Free+Body).

applied_parameters([], Xs, Xs, []) :- !.
applied_parameters([A|As], [X|Xs], Rest, [A = X|Unifiers]) :-
    applied_parameters(As, Xs, Rest, Unifiers).

pure_unifiers([], true).
pure_unifiers([A = B|Unifiers], P) :-
    pure_term(A, PA),
    pure_term(B, PB),
    pure_unifiers(Unifiers, P0),
    both(PA = PB, P0, P).


%   call_of(+Predicate, +Source, +Goal, +Context, -Pure)//: a call of a
%   predicate whose clauses are there, with its known closures.

call_of(Predicate, Source, G, Context, P) -->
    { G =.. [_|Args],
      meta_specs(Predicate, Source, Args, Specs),
      maplist(known_closure(Context), Specs, Args, Closures0),
      known_constants(Predicate, Source, Specs, Args, Closures0, Closures),
      \+ maplist(==(-), Closures),
      may_specialise(Predicate, Source, Context.project, Closures),
      copy_term_nat(Closures, Numbered),
      numbervars(Numbered, 0, _),
      Key = special(Predicate, Numbered),
      may_copy(Key) },
    !,
    { term_variables(Closures, Variables),
      other_arguments(Closures, Specs, Args, Others),
      append(Others, Variables, Args1),
      maplist(pure_term, Args1, Pure),
      P = call(Key, Pure) },
    [need(Key)].
call_of(Predicate, Source, G, _, call(Predicate, Pure)) -->
    { G =.. [_|Args0],
      meta_specs(Predicate, Source, Args0, Specs),
      maplist(passed_argument, Specs, Args0, Args),
      maplist(pure_term, Args, Pure) },
    [need(Predicate)].

meta_specs(Predicate, Source, Args, Specs) :-
    (   memberchk(Predicate-Meta, Source.meta)
    ->  Meta =.. [_|Specs]
    ;   same_length(Args, Specs)
    ).

%   An argument that meta_predicate declares arrives with its module. Where
%   that is not known before the call, it arrives as anything.

passed_argument(Spec, Arg, Passed) :-
    (   is_meta(Spec)
    ->  qualified_argument(Arg, Passed)
    ;   Passed = Arg
    ).

qualified_argument(Arg, _) :-
    var(Arg),
    !.
qualified_argument(M:Arg, Passed) :-
    !,
    (   nonvar(Arg), Arg \= _:_
    ->  Passed = M:Arg
    ;   nonvar(Arg), atom(M)            % only the last module stays
    ->  qualified_argument(Arg, Passed)
    ;   true
    ).
qualified_argument('$closure'(M, Arg), '$closure'(M, Arg)) :- !.
qualified_argument(Arg, c:Arg).

is_meta(Spec) :-
    nonvar(Spec),
    (   integer(Spec)
    ->  true
    ;   memberchk(Spec, [:, ^, //])
    ).

other_arguments([], [], [], []).
other_arguments([-|Cs], [Spec|Specs], [A|As], [B|Bs]) :-
    !,
    passed_argument(Spec, A, B),
    other_arguments(Cs, Specs, As, Bs).
other_arguments([_|Cs], [_|Specs], [_|As], Bs) :-
    other_arguments(Cs, Specs, As, Bs).

known_closure(Context, Spec, Arg, Closure) :-
    (   nonvar(Arg),
        Arg = '$closure'(_, C),
        small_closure(C)
    ->  Closure = Arg
    ;   nonvar(Spec),
        ( integer(Spec) ; Spec == (//) ),
        nonvar(Arg),
        strip_closure(Arg, Context.module, M, C),
        small_closure(C)
    ->  Closure = '$closure'(M, C)
    ;   Closure = (-)
    ).

strip_closure(Arg, M0, M, C) :-
    (   Arg = M1:Arg1
    ->  atom(M1),
        nonvar(Arg1),
        strip_closure(Arg1, M1, M, C)
    ;   Arg = '$closure'(M, C)
    ->  true
    ;   callable(Arg),
        M = M0, C = Arg
    ).

%   Closures within closures may grow from call to call, so there is a limit.

small_closure(C) :-
    term_size(C, Size),
    Size =< 200,
    findall(x, ( sub_term(Sub, C), nonvar(Sub), Sub = '$closure'(_, _) ), Within),
    length(Within, Count),
    Count =< 1,
    \+ ( sub_term(Sub, C), nonvar(Sub), Sub = '$VAR'(_) ).

%   known_constants(+Predicate, +Source, +Specs, +Args, +Closures0, -Closures):
%   with constant(Arg) for small ground arguments that select clauses, where
%   the pure program knows no difference.

known_constants(Predicate, Source, Specs, Args, Closures0, Closures) :-
    source_clauses(Source, Predicate, Real),
    constants_of(Specs, Args, Closures0, 1, Real, Closures).

constants_of([], [], [], _, _, []).
constants_of([Spec|Specs], [Arg|Args], [Closure0|Closures0], I, Real, [Closure|Closures]) :-
    (   Closure0 == (-),
        nonvar(Arg),
        \+ is_meta(Spec),
        is_small_constant(Arg),
        selects(Arg, I, Real)
    ->  Closure = constant(Arg)
    ;   Closure = Closure0
    ),
    Next is I + 1,
    constants_of(Specs, Args, Closures0, Next, Real, Closures).

is_small_constant(Arg) :-
    ground(Arg),
    \+ number(Arg),
    term_size(Arg, Size),
    Size =< 4,
    \+ ( sub_term(Sub, Arg), compound(Sub), compound_name_arity(Sub, Name, _), memberchk(Name, ['$VAR', '$closure']) ).

selects(Arg, I, Real) :-
    pure_term(Arg, Pure),
    member(clause(_, Head, _), Real),
    arg(I, Head, Other0),
    copy_term_nat(Other0, Other),
    Other \= Arg,
    pure_term(Other, PureOther),
    PureOther = Pure,
    !.

%   may_copy(+Key): there is a limit for copies by constants, since there may be
%   one for each way to combine them.

most_copies(300).

may_copy(special(Predicate, Closures)) :-
    (   \+ memberchk(constant(_), Closures)
    ->  true
    ;   constant_copy(Predicate, Closures)
    ->  true
    ;   predicate_property(constant_copy(_, _), number_of_clauses(Count)),
        most_copies(Most),
        Count < Most,
        assertz(constant_copy(Predicate, Closures))
    ).

may_specialise(Predicate, Source, Project, Closures) :-
    defining_sources(Project, Predicate, [_]),
    source_clauses(Source, Predicate, Real),
    Real = [_|_],
    \+ comes_and_goes(Source, Predicate),
    \+ memberchk(Predicate, Source.conditional),
    \+ memberchk(Predicate-_, Source.tabled),
    \+ imported_by_name(Source, Predicate),
    \+ memberchk(Predicate, Source.transparent),
    forall(member(clause(_, Head, _), Real), takes_closures(Closures, Head)).

takes_closures(Closures, Head) :-
    forall(nth1(I, Closures, '$closure'(_, _)),
           ( arg(I, Head, Argument), var(Argument) )).


%   pure_term(+Term, -Pure). Below 300 levels a term is a variable.

pure_term(Term, Pure) :-
    pure_term(Term, 300, Pure).

pure_term(Term, _, Term) :-
    var(Term),
    !.
pure_term([], _, []) :- !.
pure_term(Term, _, c) :-
    atomic(Term),
    !.
pure_term('$closure'(M, Term), Depth, Pure) :-
    !,
    pure_term(M:Term, Depth, Pure).
pure_term(_, 0, _) :- !.
pure_term(Term, Depth, Pure) :-
    compound_name_arguments(Term, Name, Args),
    (   Args == []
    ->  Pure = c
    ;   Depth1 is Depth - 1,
        maplist({Depth1}/[A, B]>>pure_term(A, Depth1, B), Args, Pures),
        pure_compound(Name, Pures, Pure)
    ).

pure_compound(Name, Args, Pure) :-
    (   arity_is_name,
        Args = [A, B, C, D|More]
    ->  (   More == []
        ->  Pure = node(A, B, C, D)
        ;   More = [E]
        ->  Pure = node(A, B, C, D, E)
        ;   More = [E|Others0],
            Others =.. [others|Others0],
            Pure = node(A, B, C, D, E, Others)
        )
    ;   pure_name(Name, PureName),
        compound_name_arguments(Pure, PureName, Args)
    ).

pure_name(Name, Pure) :-
    (   Name == '$VAR'
    ->  Pure = 'VAR of a term'
    ;   Name == '.'                   % which is the cell of a list to cti, and not to SWI-Prolog
    ->  Pure = 'dot of a term'
    ;   atom(Name)
    ->  Pure = Name
    ;   Pure = dict
    ).


%   prelude(Head, Body): pure predicates for some that are built in.

prelude(length([], c), true).
prelude(length([_|T], c), call(prelude(length/2), [T, c])).
prelude(member(X, [X|_]), true).
prelude(member(X, [_|T]), call(prelude(member/2), [X, T])).
prelude(get_assoc(K, node(K, V, _, _), V), true).
prelude(get_assoc(K, node(_, _, _, T), V), call(prelude(get_assoc/3), [K, T, V])).
prelude(get_assoc(K, node(K, V, _, _, _), V), true).
prelude(get_assoc(K, node(_, _, _, T, _), V), call(prelude(get_assoc/3), [K, T, V])).
prelude(get_assoc(K, node(_, _, _, _, T), V), call(prelude(get_assoc/3), [K, T, V])).
prelude(get_assoc(K, node(K, V, _, _, _, _), V), true).
prelude(get_assoc(K, node(_, _, _, T, _, _), V), call(prelude(get_assoc/3), [K, T, V])).
prelude(get_assoc(K, node(_, _, _, _, T, _), V), call(prelude(get_assoc/3), [K, T, V])).
prelude(text(T, T), true).
prelude(text([c|L], T), call(prelude(text/2), [L, T])).
prelude(nth(c, [X|_], X), true).
prelude(nth(c, [_|T], X), call(prelude(nth/3), [c, T, X])).
prelude(repeat, true).
prelude(repeat, call(prelude(repeat/0), [])).
prelude(atomic(c), true).
prelude(atomic([]), true).
prelude(sort([], []), true).
prelude(sort([H|T], S), ( call(prelude(sort/2), [T, R]), ( R = S ; call(prelude(insert/3), [H, R, S]) ) )).
prelude(permute([], []), true).
prelude(permute([H|T], S), ( call(prelude(permute/2), [T, R]), call(prelude(insert/3), [H, R, S]) )).
prelude(insert(X, L, [X|L]), true).
prelude(insert(X, [Y|L], [Y|R]), call(prelude(insert/3), [X, L, R])).
