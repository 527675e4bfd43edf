:- module(cti_file,
          [ cti_file_modes/3,           % +File, -Modes, -Assumptions
            cti_file_modes/4,           % +File, -Modes, -Assumptions, +Options
            cti_file_answer/3,          % +File, -Answer, +Options
            cti_file_ask/5,             % +File, +Query, -Reply, -Answer, +Options
            print_answer/1,             % +Answer
            print_reply/2,              % +Reply, +Answer
            assumption_text/2           % +Doubt, -Text
          ]).

/** <module> The modes of a real Prolog file

A real file is read, and not loaded. A pure program is made that covers it,
cti finds the modes of that program, and they are said of the file's own
predicates, with what was assumed. docs/real-files.md has the argument. This
module is not proved; what cti says of the pure program is.
*/

:- use_module(library(apply)).
:- use_module(library(assoc)).
:- use_module(library(lists)).
:- use_module(library(option)).
:- use_module(library(ordsets)).
:- use_module(library(yall)).
:- use_module(answer_text).
:- use_module(analyses).
:- use_module(asking).
:- use_module(components).
:- use_module(patterns).
:- use_module(places).
:- use_module(pure_program).
:- use_module(real_builtins, [is_harmless_name/1, is_protected/1]).
:- use_module(real_modules, [is_autoloaded/2]).
:- use_module(real_source).
:- use_module(reasons).
:- use_module(trust).

%!  cti_file_modes(+File, -Modes, -Assumptions) is det.
%!  cti_file_modes(+File, -Modes, -Assumptions, +Options) is det.
%
%   Modes is a list of Predicate-Sets for the predicates of File, where
%   Predicate is Name/Arity, or Module:Name/Arity if it is not in the module
%   of the file. Each query of it in which the arguments of one of the Sets
%   are ground ends, where the Assumptions hold: a list of
%
%       assumed(Line, Predicate, Assumption, Dependent)
%
%   At Line of the file, or of a library's where Predicate is one of its
%   module, Predicate relies on Assumption (docs/real-files.md lists them),
%   and the modes of the predicates Dependent do so through it. Predicate is
%   `file` where a whole file relies on it.
%
%   Options are those of cti_file_answer/3.
%
%   @throws error(cti_error(Status, Message), _) as cti_modes/2.

cti_file_modes(File, Modes, Assumptions) :-
    cti_file_modes(File, Modes, Assumptions, []).

cti_file_modes(File, Modes, Assumptions, Options) :-
    cti_file_answer(File, Answer, Options),
    findall(Name-Sets,
            ( member(Predicate, Answer.predicates),
              _{name:Name, modes:ModesOf} :< Predicate,
              ground_sets(ModesOf, Sets) ),
            Modes),
    findall(assumed(Line, PI, Doubt, Dependents),
            ( member(Assumption, Answer.assumptions),
              _{number:Number, line:Line, predicate:PI, doubt:Doubt} :< Assumption,
              dependents(Number, Answer.predicates, Dependents) ),
            Assumptions).

dependents(Number, Predicates, Dependents) :-
    findall(Name,
            ( member(Predicate, Predicates),
              _{name:Name, assumptions:Numbers} :< Predicate,
              memberchk(Number, Numbers) ),
            Dependents).

%   A list whose length has to be known is known where it is ground.

ground_sets(Modes, Sets) :-
    findall(mode{arguments:Set, by:ground}, member(mode{arguments:Set, by:_}, Modes), Ground),
    minimal_modes(Ground, Minimal),
    findall(Set, member(mode{arguments:Set, by:_}, Minimal), Sets).

%!  cti_file_answer(+File, -Answer:dict, +Options) is det.
%
%   Answer is
%
%       answer{ file, files, predicates, assumptions, trusts, certificates, unanswered, unread }
%
%   with the path of File, all paths that were asked for, the predicates of
%   the file in the order of its lines, what is assumed, what its author trusts
%   (trust{file, line, predicate, used}), and a list of
%
%       certificate{kind, facts, checked}
%
%   one for each analysis that was done, with the number of its facts, and
%   whether `cti check` accepted it. A predicate is
%
%       predicate{ name, file, line, column, exported, modes, reason, reason_text,
%                  reason_places, assumptions, recursion, found_by, checked, not_shown }
%
%   where modes is a list of mode{arguments, by}: every query ends in which
%   the arguments are `ground`, or known by `length` (docs/real-files.md). No
%   mode of the list follows from another one. reason is why there is none,
%   or `none`, reason_text the same as a string, and reason_places a list of
%   place(Path, Line, Column, Text). assumptions has the numbers of those
%   that it relies on. recursion is `recursive`, `calls` if it calls a
%   recursive predicate, or `plain`. found_by has the analyses that found
%   the modes, and checked is `true` if `cti check` accepted a certificate of
%   each of them. not_shown has place(Path, Line, Column, Text) for patterns that
%   a comment of PlDoc or a call in the file wants, and no mode meets, where
%   there are modes. An assumption is
%
%       assumption{number, file, line, predicate, doubt, text}
%
%   unanswered has the analyses that gave no answer, or not in time, and unread
%   is a list of place(Path, Line, Column, Text), with the reader's message for
%   each clause that could not be read.
%
%   Options:
%
%     - norm(+Norm)
%       Only modes by the size of terms (`term`), or of lists (`list`).
%     - timeout(+Seconds)
%       For all that is asked of cti; 12 by default.
%     - check(+Boolean)
%       If `true` (default), certificates are checked by `cti check`.
%     - trust(+File)
%       Has more of what is trusted. There may be several.
%     - calls(+Boolean)
%       If `true`, Answer has calls too: a list of calls(Path, Name, Called), one for
%       each predicate, where Called is a list of Path-Name. What is called through
%       a library, as a goal of maplist/3, is among them.
%     - keep(+Directory)
%       Writes the pure program and its certificates there.

cti_file_answer(File, Answer, Options) :-
    with_analysis(File, Known,
                  ( answer(Known, Answer0), with_calls(Known, Answer0, Answer, Options) ),
                  Options).

%!  cti_file_ask(+File, +Query, -Reply:dict, -Answer:dict, +Options) is det.
%
%   Query is text as `app(b,f,f)`, with `b` for a ground argument, `l` for a
%   list whose length is known, and `f` for any term. Reply is
%
%       reply{query, answer, text, places, assumptions}
%
%   answer is `yes` if each such query ends, where the assumptions hold; `no` if
%   one of them does not, unless an error ends it; and else `unknown`. text says
%   why, and places is a list of place(Path, Line, Column, Text). Answer and the
%   options are as of cti_file_answer/3.
%
%   @throws error(no_predicate(Query), _) where the file has no such predicate.

cti_file_ask(File, Query, Reply, Answer, Options) :-
    with_analysis(File, Known, ( answer(Known, Answer), asked(Query, Known, Answer, Reply) ), Options).

asked(Query, Known, Answer, Reply) :-
    (   query_pattern(Query, Module, PI, Pattern)
    ->  true
    ;   throw(error(no_pattern(Query), _))
    ),
    (   member(Source, Known.project.sources),
        is_own_key(Source, Module:PI),
        shown(Module:PI, Source.module, Name),
        member(Predicate, Answer.predicates),
        Predicate.name == Name
    ->  true
    ;   throw(error(no_predicate(Query), _))
    ),
    reply(Module:PI, Pattern, Known.put(source, Source), Predicate, Reply0),
    Reply = Reply0.put(_{query:Query, assumptions:Predicate.assumptions}).

%   A query without a module is of the first file that has such a predicate.

is_own_key(Source, Module:PI) :-
    (   var(Module)
    ->  Module = Source.module
    ;   true
    ),
    is_defined(Source, Module:PI).

%   with_analysis(+File, -Known, :Goal, +Options): Goal is called with all that
%   is known of the file, while the files of the work are there.

:- meta_predicate with_analysis(+, -, 0, +).

with_analysis(File, Known, Goal, Options) :-
    forget_places,
    read_sources(File, Project0),
    trusts(Project0, Trusts, Untrusted, Options),
    Project = Project0.put(trusts, Trusts),
    covering_program(Project, Program0),
    discharged(Program0, Project, Trusts, Program, Used),
    setup_call_cleanup(
        work_files(Project.path, Prefix, Options),
        ( known(Project, Program, Prefix, Known0, Options),
          Known = Known0.put(_{trusts:Trusts, used_trusts:Used, untrusted:Untrusted}),
          once(Goal) ),
        forget_work_files(Prefix, Options)).

%   Those of the files, and of the files of the options trust(File).

trusts(Project, Trusts, Unread, Options) :-
    maplist(file_trusts, Project.files, Own, Lists),
    append(Lists, Unread),
    findall(Kept, ( member(trust(File), Options), kept_trusts(File, Kept) ), Others),
    append(Own, OwnTrusts),
    append([OwnTrusts|Others], Trusts).

known(Project, Program, Prefix, Known, Options) :-
    Project.sources = [Source|_],
    file_name_extension(Prefix, 'pure.pl', PureFile),
    write_program(Program, PureFile, Names),
    program_graph(Program, Graph),
    components(Graph, Components),
    recursion(Components, Graph, Kinds),
    analysed(PureFile, Prefix, Names, Kinds, Found, Options),
    Known0 = known{project:Project, source:Source, program:Program, pure_file:PureFile, names:Names, graph:Graph,
                   components:Components, kinds:Kinds, found:Found},
    reasoning(Known0, Reasoning),
    Known1 = Known0.put(reasoning, Reasoning),
    wanted_patterns(Known1, Wanted),
    Known = Known1.put(wanted, Wanted).

answer(Known, Answer) :-
    _{project:Project, found:Found} :< Known,
    answer_predicates(Known, Predicates, Assumptions),
    findall(certificate{kind:Analysis, facts:Count, checked:Checked},
            ( member(Result, Found.results),
              _{analysis:Analysis, facts:Facts, checked:Checked} :< Result,
              length(Facts, Count) ),
            Certificates),
    findall(trust{file:File, line:Line, predicate:PI, used:Used},
            ( member(Trust, Known.trusts),
              Trust = trust(File, Line, PI),
              (   memberchk(Trust, Known.used_trusts)
              ->  Used = true
              ;   Used = false
              ) ),
            Trusts),
    findall(Place, ( member(Source, Project.sources), member(Place, Source.unread) ), Unread0),
    append(Unread0, Known.untrusted, Unread),
    Answer = answer{file:Project.path, files:Project.files, predicates:Predicates, assumptions:Assumptions,
                    trusts:Trusts, certificates:Certificates, unanswered:Found.unanswered, unread:Unread}.

with_calls(Known, Answer0, Answer, Options) :-
    (   option(calls(true), Options)
    ->  own_calls(Known, Calls),
        Answer = Answer0.put(calls, Calls)
    ;   Answer = Answer0
    ).

own_calls(Known, Calls) :-
    own_keys(Known.project, Own),
    findall(Key-(File-Name),
            ( member(Key-Path, Own),
              once(( member(Source, Known.project.sources), Source.path == Path )),
              shown(Key, Source.module, Name),
              key_place(Key, Source, Known.project.path, File, _, _) ),
            Pairs),
    list_to_assoc(Pairs, Names),
    findall(calls(File, Name, Called),
            ( member(Key-(File-Name), Pairs),
              reached(Key, Known.graph, Names, Called) ),
            Calls).

%   reached(+Key, +Graph, +Names, -Called): those that have Names, and are called
%   by Key, or by what it calls that has none.

reached(Key, Graph, Names, Called) :-
    successors(Key, Graph, Successors),
    empty_assoc(Seen),
    reached(Successors, Graph, Names, Seen, Called0),
    sort(Called0, Called).

reached([], _, _, _, []).
reached([Key|Keys], Graph, Names, Seen, Called) :-
    (   get_assoc(Key, Seen, _)
    ->  reached(Keys, Graph, Names, Seen, Called)
    ;   put_assoc(Key, Seen, seen, Seen1),
        (   get_assoc(Key, Names, Name)
        ->  Called = [Name|More], Next = Keys
        ;   Key = special(Predicate, _), get_assoc(Predicate, Names, Name)
        ->  Called = [Name|More],
            successors(Key, Graph, Successors),
            append(Successors, Keys, Next)
        ;   Called = More,
            successors(Key, Graph, Successors),
            append(Successors, Keys, Next)
        ),
        reached(Next, Graph, Names, Seen1, More)
    ).

successors(Key, Graph, Successors) :-
    (   get_assoc(Key, Graph, Successors)
    ->  true
    ;   Successors = []
    ).

%   work_files(+Path, -Prefix, +Options): what the names of the files for cti
%   begin with.

work_files(Path, Prefix, Options) :-
    (   option(keep(Directory), Options)
    ->  file_base_name(Path, Base),
        file_name_extension(Stem, _, Base),
        atomic_list_concat([Directory, /, Stem], Prefix)
    ;   tmp_file(cti_file, Prefix)
    ).

forget_work_files(Prefix, Options) :-
    (   option(keep(_), Options)
    ->  true
    ;   atom_concat(Prefix, '.*', Pattern),
        expand_file_name(Pattern, Files),
        forall(( member(File, Files), exists_file(File) ), delete_file(File))
    ).


%   What is said of the file.

answer_predicates(Known, Predicates, Assumptions) :-
    Project = Known.project,
    own_keys(Project, Own),
    notes_below(Known, Below),
    findall(Note,
            (   member(Key-_, Own), get_assoc(Key, Below, Notes), member(Note, Notes)
            ;   Own == [],
                member(Source, Project.sources),
                member(doubt(Line, Doubt), Source.doubts),
                Note = place(file, Line, Doubt)
            ),
            Notes0),
    sort(Notes0, Notes),
    numbered_notes(Notes, Project, Numbers, Assumptions),
    findall(Predicate,
            ( member(Key-Path, Own),
              own_predicate(Key, Path, Known, Below, Numbers, Predicate) ),
            Predicates0),
    sorted_by_place(Predicates0, Predicates).

own_predicate(Key, Path, Known, Below, Numbers, Predicate) :-
    member(Source, Known.project.sources),
    Source.path == Path,
    !,
    Key = _:PI,
    shown(Key, Source.module, Name),
    key_place(Key, Source, Known.project.path, File, Line, Column),
    (   Key = Source.module:_, memberchk(PI, Source.exports)
    ->  Exported = true
    ;   Exported = false
    ),
    get_assoc(Key, Known.found.modes, Found),
    get_assoc(Key, Known.kinds, Recursion),
    get_assoc(Key, Below, Relied),
    findall(Number, ( member(Note, Relied), get_assoc(Note, Numbers, Number) ), Numbers0),
    sort(Numbers0, Assumptions),
    findall(mode{arguments:Arguments, by:By}, member(found(Arguments, By, _), Found), Modes),
    findall(Analysis, ( member(found(_, _, Analyses), Found), member(Analysis, Analyses) ), FoundBy0),
    sort(FoundBy0, FoundBy),
    (   Modes == []
    ->  reason(Key, Known.reasoning, Reason, Text, Places)
    ;   Reason = none, Text = "", Places = []
    ),
    not_shown(Key, Modes, Known, NotShown),
    (   member(found(_, _, Analyses), Found),
        \+ ( member(Result, Known.found.results), memberchk(Result.analysis, Analyses), Result.checked == true )
    ->  Checked = false
    ;   Checked = true
    ),
    Predicate = predicate{name:Name, file:File, line:Line, column:Column, exported:Exported, modes:Modes,
                          reason:Reason, reason_text:Text, reason_places:Places, assumptions:Assumptions,
                          recursion:Recursion, found_by:FoundBy, checked:Checked, not_shown:NotShown}.

sorted_by_place(Predicates, Sorted) :-
    findall(key(File, Line, Name)-Predicate,
            ( member(Predicate, Predicates),
              _{file:File, line:Line, name:Name} :< Predicate ),
            Pairs),
    keysort(Pairs, SortedPairs),
    findall(Predicate, member(_-Predicate, SortedPairs), Sorted).

%   Clauses of predicates that no file can define are refused when it is
%   loaded.

%   own_keys(+Project, -Own): Key-Path, where Path is that of the first source
%   that has clauses of Key.

own_keys(Project, Own) :-
    maplist(keys_of_source, Project.sources, Lists),
    append(Lists, All0),
    sort(1, @<, All0, Own).

keys_of_source(Source, Pairs) :-
    assoc_to_keys(Source.clauses, Keys0),
    append(Keys0, Source.dynamic, Keys1),
    exclude(refused(Source), Keys1, Keys),
    findall(Key-Source.path, member(Key, Keys), Pairs).

refused(Source, Module:Name/Arity) :-
    functor(Goal, Name, Arity),
    is_protected(Goal),
    \+ memberchk(Module:Name/Arity, Source.redefined).

%   key_place(+Key, +Source, +First, -File, -Line, -Column): its first clause.

key_place(Key, Source, First, File, Line, Column) :-
    (   source_clauses(Source, Key, [clause(Place, _, _)|_])
    ->  true
    ;   Source.path == First
    ->  Place = 0
    ;   Place = Source.path:0
    ),
    place_of_line(Place, First, File, Line, Column).


%   notes_below(+Known, -Below): the notes that each key relies on, as
%   place(Key, Line, Doubt). Components come callees first.

notes_below(Known, Below) :-
    _{program:Program, project:Project, components:Components, graph:Graph} :< Known,
    early_calls(Program, Project, Graph, Early),
    findall(Key-Places,
            ( member(predicate(Key, Clauses, Notes), Program),
              findall(Place,
                      (   member(Note, Notes), place_of_note(Note, Key, Place)
                      ;   memberchk(Key, Early), first_line(Clauses, Line), Place = place(Key, Line, imported)
                      ),
                      Places0),
              sort(Places0, Places) ),
            Pairs),
    list_to_assoc(Pairs, Direct),
    empty_assoc(Empty),
    foldl(component_notes(Direct, Graph), Components, Empty, Below0),
    everybodys_notes(Project, Pairs, Below0, Everywhere),
    findall(Met, ( member(_-Places, Pairs), member(Met, Places), is_met(Met, Known.found.modes, Below0) ), Met0),
    sort(Met0, AllMet),
    map_assoc(relied_on(Everywhere, AllMet), Below0, Below).

first_line([], 0).
first_line([clause(_, _, Line)|_], Line).

%   early_calls(+Program, +Project, +Graph, -Keys): predicates of the files that a
%   directive calls, and a library has too: if they are not there yet, the
%   library's are imported, and the file's are refused.

early_calls(Program, Project, Graph, Keys) :-
    (   memberchk(predicate(directives, _, _), Program)
    ->  called_from([directives], Graph, [], Reached),
        findall(Key,
                ( member(Key, Reached), Key = Module:PI, is_of_roots(Key, Project), is_autoloaded(PI, Module) ),
                Keys)
    ;   Keys = []
    ).

called_from([], _, Reached, Reached).
called_from([Key|Keys], Graph, Reached0, Reached) :-
    (   ( memberchk(Key, Reached0) ; \+ get_assoc(Key, Graph, _) )
    ->  called_from(Keys, Graph, Reached0, Reached)
    ;   get_assoc(Key, Graph, Callees),
        append(Callees, Keys, More),
        called_from(More, Graph, [Key|Reached0], Reached)
    ).

%   is_met(+Place, +Modes, +Below): the doubt is of a hook that ends for all
%   queries, and relies on nothing but that other files add no clauses that do
%   not.

is_met(place(file, _, hook(Key)), Modes, Below) :-
    Key = _:Name/_,
    \+ memberchk(Name, [prolog_exception_hook, prolog_event_hook, heartbeat, exception]),
    get_assoc(Key, Modes, Found),
    memberchk(found([], _, _), Found),
    get_assoc(Key, Below, Notes),
    forall(member(place(_, _, Doubt), Notes), memberchk(Doubt, [multifile, hook(Key)])).

%   What a goal adds, or how the text is then read, matters to others alone, and
%   only where a directive calls it.

relied_on(Everywhere, Met, Below, Notes) :-
    exclude(of_directives_alone, Below, Own0),
    ord_union(Everywhere, Own0, Own),
    ord_subtract(Own, Met, Notes).

of_directives_alone(place(Key, _, Doubt)) :-
    (   memberchk(Doubt, [asserts, directive(asserts), directive(flags)])
    ->  true
    ;   Doubt == flags,
        Key \== file
    ).

%   Doubts of what the directives of the files call are everybody's, and so are
%   those of what a goal of the files leaves behind.

everybodys_notes(Project, Direct, Below, Everywhere) :-
    (   get_assoc(directives, Below, Left)
    ->  include(may_last, Left, Notes1)
    ;   Notes1 = []
    ),
    findall(place(Key, Line, lasting(What)),
            ( member(_-Places, Direct), member(place(Key, Line, lasting(What)), Places), is_of_roots(Key, Project) ),
            Notes2),
    append(Notes1, Notes2, Notes),
    sort(Notes, Everywhere).

%   A doubt of whether something ends, once it has ended, leaves nothing behind.

may_last(place(_, _, Doubt)) :-
    \+ memberchk(Doubt, [ multifile, conditional, tabled, bound, cyclic, imported, halts, transparent, risk(grows, _),
                          directive(bound), directive(cyclic), directive(halts), directive(risk(grows, _)) ]),
    \+ ( Doubt = external(_:PI), is_harmless_name(PI) ).

is_of_roots(file, _) :- !.
is_of_roots(Key, Project) :-
    member(Source, Project.sources),
    is_defined(Source, Key),
    !.

place_of_note(note(Line, file(Doubt)), _, place(file, Line, Doubt)) :- !.
place_of_note(note(Line, Doubt), Key, place(Named, Line, Doubt)) :-
    named_key(Key, Named).

component_notes(Direct, Graph, Component, Below0, Below) :-
    findall(Notes,
            ( member(Key, Component),
              (   get_assoc(Key, Direct, Notes)
              ;   get_assoc(Key, Graph, Callees),
                  member(Callee, Callees),
                  get_assoc(Callee, Below0, Notes)
              ) ),
            Lists),
    ord_union(Lists, All),
    with_value(Component, All, Below0, Below).

%   numbered_notes(+Notes, +Project, -Numbers, -Assumptions): in the order of
%   lines, those of the files that were asked for first. Numbers has each note's
%   number.

numbered_notes(Notes, Project, Numbers, Assumptions) :-
    findall(order(Elsewhere, File, Line)-Note,
            ( member(Note, Notes),
              Note = place(_, Place, _),
              place_of_line(Place, Project.path, File, Line, _),
              (   nth1(Elsewhere, Project.files, File)
              ->  true
              ;   Elsewhere = elsewhere
              ) ),
            Pairs0),
    keysort(Pairs0, Pairs),
    numbered_notes(Pairs, 1, Project, NumberPairs, Assumptions),
    list_to_assoc(NumberPairs, Numbers).

numbered_notes([], _, _, [], []).
numbered_notes([order(_, File, Line)-Note|Pairs], Number, Project, [Note-Number|Numbers], [Assumption|Assumptions]) :-
    Note = place(Key, _, Doubt),
    (   member(Source, Project.sources),
        is_defined(Source, Key)
    ->  shown(Key, Source.module, Shown)
    ;   Shown = Key
    ),
    assumption_text(Doubt, Text),
    Assumption = assumption{number:Number, file:File, line:Line, predicate:Shown, doubt:Doubt, text:Text},
    Next is Number + 1,
    numbered_notes(Pairs, Next, Project, Numbers, Assumptions).


%   Which predicates are recursive, or call one that is.

recursion(Components, Graph, Kinds) :-
    empty_assoc(Empty),
    foldl(component_kind(Graph), Components, Empty, Kinds).

component_kind(Graph, Component, Kinds0, Kinds) :-
    (   Component = [Key], get_assoc(Key, Graph, Callees), \+ memberchk(Key, Callees)
    ->  (   member(Callee, Callees), get_assoc(Callee, Kinds0, Kind0), Kind0 \== plain
        ->  Kind = calls
        ;   Kind = plain
        )
    ;   Kind = recursive
    ),
    with_value(Component, Kind, Kinds0, Kinds).

%   with_value(+Keys, +Value, +Assoc0, -Assoc)

with_value([], _, Assoc, Assoc).
with_value([Key|Keys], Value, Assoc0, Assoc) :-
    put_assoc(Key, Assoc0, Value, Assoc1),
    with_value(Keys, Value, Assoc1, Assoc).
