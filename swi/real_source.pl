:- module(real_source,
          [ read_source/2,              % +File, -Source
            read_sources/2,             % +Files, -Project
            file_source/2,              % +Path, -Source
            file_reexports/2,           % +Path, -Imports
            module_header/4,            % +Spec, +Path, -ModulePath, -Header
            is_library_file/1,          % +Path
            source_clauses/3,           % +Source, +Predicate, -Clauses
            adds_unknown_clause/2,      % +Goal, +Module
            is_defined/2                % +Source, +Predicate
          ]).

/** <module> A real Prolog file, read and not loaded

read_source/2 reads a file with SWI-Prolog's own reader, with the operators,
the flags, the conditional compilation, the grammar rules and the included
files that it has, and runs nothing of it. A file without a module that it
loads is read as its own text.

read_sources/2 reads several files as one program, a project. That is a dict
with `path`, the first of the files, `files`, the paths of all, and
`sources`: one for each module, and one for all files that have none.

A predicate is Module:Name/Arity. A Line is the number of a line in the first
file, and Path:Number in any other. A source is a dict:

| path        | the file                                                    |
| module      | its module, `user` where it has none                        |
| exports     | Name/Arity for each predicate that it exports               |
| texts       | its paths with those of the texts that it includes or loads |
| clauses     | an assoc of each predicate's list of clause(Line,Head,Body) |
| dynamic     | the predicates whose clauses come and go                    |
| multifile   | the predicates that other files add to                      |
| conditional | those with a clause below an `:- if` that is not decided     |
| tabled      | Predicate-Kind, where Kind is `plain` or `moded`            |
| meta        | Predicate-Head for each declaration of meta_predicate       |
| imports     | import(Path,Header,Selection), in order                     |
| reexports   | those of them that it exports again                         |
| arithmetic  | Name/Arity of the file's own functions in arithmetic        |
| transparent | those whose goals run in the module of their callers        |
| redefined   | the predicates that stand for built-in ones of their names  |
| letters     | `yes` where the file may define letters of format/2         |
| expansions  | expansion(Kind,Pattern): what the file rewrites when loaded |
| uncertain   | those that may be without any definition when they are called, |
|             | or `any`                                                    |
| doubts      | doubt(Line,Doubt): what was not understood of the file      |
| adds        | doubt(Line,asserts): where it adds a clause that is not     |
|             | known                                                       |
| unread      | place(Path,Line,Column,Message) of each syntax error        |
| operators   | the module that has the operators of its text               |
| directives  | directive(Line,Module,Goal) for each directive              |
| mentions    | names in the text of what is run later, see file_doubts     |
| flags       | `tabling`, `printing` where the file sets flags of these    |
| joins       | Predicate-Goal: tabling calls Goal to join its answers      |
*/

:- use_module(library(apply)).
:- use_module(library(assoc)).
:- use_module(library(error)).
:- use_module(library(filesex)).
:- use_module(library(gensym)).
:- use_module(library(lists)).
:- use_module(library(occurs)).
:- use_module(library(pairs)).
:- use_module(library(readutil)).
:- use_module(library(yall)).
:- use_module(file_doubts).
:- use_module(real_builtins, [flag_kind/2]).
:- use_module(trust, [is_trust_line/2]).

:- dynamic kept_header/2, kept_reexports/2.

%!  read_source(+File, -Source:dict) is det.
%
%   Throws what open/4 throws where File cannot be read, and
%   error(not_text(Path, Text), _) where it, or a file that it loads, is no
%   text in UTF-8.

read_source(File, Source) :-
    read_sources([File], Project),
    Project.sources = [Source].

%!  read_sources(+Files, -Project:dict) is det.
%
%   Files is a file, a directory, or a list of such. A directory stands for the
%   files of Prolog in it and below it. Files without a module are one source.
%   One that another of Files includes, or loads into its module, is read there
%   alone. Throws as read_source/2.

read_sources(Files, Project) :-
    (   is_list(Files)
    ->  maplist(project_paths, Files, Lists)
    ;   project_paths(Files, List),
        Lists = [List]
    ),
    append(Lists, Paths0),
    list_to_set(Paths0, Paths),
    forget_headers,
    Paths = [First|_],
    partition(has_module, Paths, ModulePaths, PlainPaths0),
    maplist(read_module(First), ModulePaths, ModuleTexts),
    findall(Loaded, ( member(text(_, Texts, _, _), ModuleTexts), member(Loaded, Texts) ), Elsewhere),
    subtract(PlainPaths0, Elsewhere, PlainPaths),
    (   PlainPaths == []
    ->  Texts = ModuleTexts
    ;   read_plain(First, PlainPaths, PlainText),
        Texts = [PlainText|ModuleTexts]
    ),
    findall(Path-expansion(K, T), ( member(text(Path, _, _, Items), Texts), wide_expansion(Items, K, T) ), Wide),
    maplist(text_source(Wide), Texts, Sources),
    Project = project{path:First, files:Paths, sources:Sources}.

project_paths(File, Paths) :-
    (   atomic(File),
        exists_directory(File)
    ->  absolute_file_name(File, Directory, [file_type(directory)]),
        findall(Path, directory_member(Directory, Path, [extensions([pl, prolog, pro]), recursive(true), access(read)]),
                Paths0),
        sort(Paths0, Paths),
        (   Paths == []
        ->  existence_error(prolog_file, File)
        ;   true
        )
    ;   absolute_file_name(File, Path, [access(read), file_type(prolog)]),
        Paths = [Path]
    ).

%   A file of the user's may have changed since it was last looked at.

forget_headers :-
    retractall(kept_reexports(_, _)),
    forall(( kept_header(Path, _), \+ is_library_file(Path) ), retractall(kept_header(Path, _))),
    forall(( nb_current(Variable, _), atom_concat('real source of ', Path, Variable), \+ is_library_file(Path) ),
           nb_delete(Variable)).

has_module(Path) :-
    path_header(Path, header(Module, _)),
    Module \== none.

read_module(First, Path, text(Path, Texts, Operators, Items)) :-
    line_place(First, Path, Place),
    first_state(Path, Place, Operators, State0),
    read_text(Path, State0, State, Items, []),
    loaded_texts(State, Texts).

read_plain(First, [Path|Paths], text(Path, Texts, Operators, Items)) :-
    line_place(First, Path, Place),
    first_state(Path, Place, Operators, State0),
    read_text(Path, State0, State1, Items, Rest),
    foldl(read_next(First), Paths, State1-Rest, State-[]),
    loaded_texts(State, Texts).

read_next(First, Path, State0-Items, State-Rest) :-
    (   memberchk(_-Path, State0.loaded)
    ->  State = State0,
        Items = Rest
    ;   line_place(First, Path, Place),
        read_text(Path, State0.put(_{path:Path, place:Place, module:user, file_module:user, conditions:[],
                                     double_quotes:string, back_quotes:codes, loaded:[user-Path|State0.loaded]}),
                  State, Items, Rest)
    ).

line_place(First, Path, Place) :-
    (   Path == First
    ->  Place = first
    ;   Place = Path
    ).

%   A scratch module has the operators of the text.

first_state(Path, Place, Scratch, State) :-
    gensym('real source ', Scratch),
    State = state{path:Path, module:user, file_module:user, scratch:Scratch, double_quotes:string, back_quotes:codes,
                  conditions:[], flags:[], units:[], chr:no, included:no, place:Place, loaded:[user-Path],
                  within:directive}.

loaded_texts(State, Texts) :-
    pairs_values(State.loaded, Texts).

%!  file_source(+Path, -Source:dict) is semidet.
%
%   The source of a file that is not among those asked for. It is kept, since
%   a file does not change meanwhile. Fails if it cannot be read.

file_source(Path, Source) :-
    source_variable(Path, Variable),
    (   nb_current(Variable, Kept)
    ->  Kept = some(Source)
    ;   catch(read_module(none, Path, Text), _, fail)
    ->  text_source([], Text, Source),
        nb_setval(Variable, some(Source))
    ;   nb_setval(Variable, none),
        fail
    ).

%   Global variables are not copied when they are looked up, as facts are.

source_variable(Path, Variable) :-
    atom_concat('real source of ', Path, Variable).

%!  file_reexports(+Path, -Imports) is det.
%
%   What the file exports again. Few files do, so others are not read for it.

file_reexports(Path, Imports) :-
    kept_reexports(Path, Imports),
    !.
file_reexports(Path, Imports) :-
    (   catch(read_file_to_string(Path, Text, []), _, fail),
        sub_string(Text, _, _, _, "reexport"),
        file_source(Path, Source)
    ->  Imports = Source.reexports
    ;   Imports = []
    ),
    assertz(kept_reexports(Path, Imports)).

read_text(Path, State0, State, Items, Rest) :-
    setup_call_cleanup(open_text(Path, In),
                       ( skip_interpreter(In), read_items(In, State0, State, Items, Rest) ),
                       close(In)).

%   open_text(+Path, -In): SWI-Prolog's reader does not survive some texts in
%   UTF-16, and a program of the machine has no clauses.

open_text(Path, In) :-
    setup_call_cleanup(open(Path, read, Bytes, [type(binary)]),
                       read_string(Bytes, 65536, Start),
                       close(Bytes)),
    (   no_text(Start, Text)
    ->  throw(error(not_text(Path, Text), _))
    ;   open(Path, read, In, [encoding(utf8), bom(true)])
    ).

no_text(Start, "this text is in UTF-16 or UTF-32: save it as UTF-8") :-
    member(Mark, ["\xFF\\xFE\", "\xFE\\xFF\", "\x0\\x0\\xFE\\xFF\"]),
    sub_string(Start, 0, _, _, Mark),
    !.
no_text(Start, "this is no text: it has bytes of 0") :-
    sub_string(Start, Before, _, _, "\x0\"),
    !,
    Before < 1024.              % some texts have one in a comment

skip_interpreter(In) :-
    (   peek_string(In, 2, "#!")
    ->  skip(In, 0'\n)
    ;   true
    ).

read_items(In, State0, State, Items, Rest) :-
    read_one(In, State0, Term, Line),
    (   Term == end_of_file
    ->  State = State0,
        (   State0.included == no
        ->  Items = [raw(Line, end_of_file)|Rest]    % which a file may rewrite
        ;   Items = Rest
        )
    ;   item(Term, Line, In, State0, State1, Items, More),
        flags_set(Term, State1, State2),
        read_items(In, State2, State, More, Rest)
    ).

%   Flags that the file sets: conditions that ask for them are not decided.

flags_set(Term, State0, State) :-
    findall(Flag, ( sub_term(Goal, Term), sets_flag(Goal, Flag) ), Flags),
    (   Flags == []
    ->  State = State0
    ;   append(Flags, State0.flags, All),
        sort(All, Sorted),
        State = State0.put(flags, Sorted)
    ).

sets_flag(Goal, Flag) :-
    compound(Goal),
    (   Goal = set_prolog_flag(Flag0, _)
    ;   Goal = create_prolog_flag(Flag0, _, _)
    ),
    strip_module(Flag0, _, Flag1),
    (   atom(Flag1)
    ->  Flag = Flag1
    ;   Flag = any
    ).

read_one(In, State, Term, Line) :-
    Options = [module(State.scratch), double_quotes(State.double_quotes),
               back_quotes(State.back_quotes), syntax_errors(error),
               term_position(Position)],
    line_count(In, Before),
    catch(( read_term(In, Term, Options),
            stream_position_data(line_count, Position, Line0) ),
          error(syntax_error(Error), Place),
          ( syntax_error_place(Place, Before, Line0, Column),
            message_to_string(error(syntax_error(Error), _), Message),
            Term = '$unread'(place(State.path, Line0, Column, Message)) )),
    (   State.place == first
    ->  Line = Line0
    ;   Line = State.place:Line0
    ).

%   syntax_error_place(+Place, +Before, -Line, -Column): Before is the line at
%   which the reader began.

syntax_error_place(Place, Before, Line, Column) :-
    (   nonvar(Place),
        ( Place = file(_, Line, Position, _) ; Place = stream(_, Line, Position, _) )
    ->  Column is Position + 1
    ;   Line = Before,
        Column = 1
    ).


%   item(+Term, +Line, +In, +State0, -State, -Items, ?Rest)
%
%   Directives of conditional compilation are obeyed everywhere, all other
%   terms where the conditions around them are not known to be false.

item((:- Directive), Line, _, State0, State, Items, Items) :-
    nonvar(Directive),
    conditional(Directive, Line, State0, State),
    !.
item(_, _, _, State, State, Items, Items) :-
    is_skipped(State.conditions),
    !.
item('$unread'(place(Path, Line, _, _)), _, _, State, State, Items, Items) :-
    is_trust_line(Path, Line),
    !.
item('$unread'(Place), Line, _, State, State, [doubt(Line, unread), unread(Place)|Items], Items) :- !.
item([Term|Terms], Line, In, State0, State, Items, Rest) :-
    !,                                  % a list of clauses, as they are
    (   is_list(Terms)
    ->  Items = [raw(Line, [Term|Terms])|More],
        foldl({Line, In}/[One, S0-I0, S-I]>>item(One, Line, In, S0, S, I0, I), [Term|Terms], State0-More, State-Rest)
    ;   State = State0,
        Items = [doubt(Line, unread)|Rest]
    ).
item([], _, _, State, State, Items, Items) :- !.
item((:- Directive), Line, In, State0, State, Items, Rest) :-
    !,
    directive(Directive, Line, In, State0, State, Items, Rest).
item((?- Directive), Line, In, State0, State, Items, Rest) :-
    !,
    directive(Directive, Line, In, State0, State, Items, Rest).
item(Term, Line, _, State, State, [doubt(Line, chr)|Items], Items) :-
    State.chr == yes,
    chr_rule(Term),
    !.
item(Term, Line, _, State0, State, [raw(Line, Term)|Items], Rest) :-
    (   catch(plain_clause(Term, State0.module, Module, Head, Body), _, fail)
    ->  functor(Head, Name, Arity),
        Predicate = Module:Name/Arity,
        Items = [clause(Predicate, Line, Head, Body)|More],
        (   memberchk(maybe, State0.conditions)
        ->  More = [conditional(Predicate)|More1]
        ;   More = More1
        ),
        found_within(clause(Body), Line, State0, State, More1, Rest)
    ;   State = State0,
        Items = [doubt(Line, unread)|Rest]
    ).

chr_rule('==>'(_, _)).
chr_rule('<=>'(_, _)).
chr_rule('@'(_, _)).
chr_rule(pragma(_, _)).

%   plain_clause(+Term, +Module0, -Module, -Head, -Body): a clause of any
%   form as head and body. A rule with => matches its head, which is
%   unification with an instance.

plain_clause(Term0, Module0, Module, Head, Body) :-
    without_functions(Term0, Term),
    clause_parts(Term, Module0, Module, Head, Body).

%   Functional notation is expanded. '$closure'/2 is kept for real_goals.

without_functions(Term0, Term) :-
    (   has_compound(Term0, '.')
    ->  expand_term(Term0, Term)
    ;   Term = Term0
    ),
    \+ has_compound(Term, '$closure').

has_compound(Term, Name) :-
    sub_term(Sub, Term),
    compound(Sub),
    compound_name_arity(Sub, Name, 2),
    !.

clause_parts(Term, _, _, _, _) :-
    var(Term),
    !,
    fail.
clause_parts(M:Term, _, Module, Head, Body) :-
    !,
    atom(M),
    clause_parts(Term, M, Module, Head, Body).
clause_parts((H --> B), Module0, Module, Head, Body) :-
    !,
    dcg_translate_rule((H --> B), Clause),
    clause_parts(Clause, Module0, Module, Head, Body).
clause_parts('==>'(H, B), Module0, Module, Head, Body) :-
    !,
    dcg_translate_rule('==>'(H, B), Clause),
    clause_parts(Clause, Module0, Module, Head, Body).
clause_parts((H :- B), Module0, Module, Head, Body) :-
    !,
    plain_head(H, Module0, Module, Head),
    rule_body(B, B1),
    body_in(Module0, Module, B1, Body).
clause_parts((H0 => B0), Module0, Module, Head, Body) :-
    !,
    (   nonvar(H0), H0 = (H, Guard)
    ->  B = (Guard, B0)
    ;   H = H0, B = B0
    ),
    plain_head(H, Module0, Module, Head),
    rule_body(B, B1),
    body_in(Module0, Module, B1, Body).
clause_parts(H, Module0, Module, Head, true) :-
    plain_head(H, Module0, Module, Head).

%   A body `true` is one that the file may rewrite, which a fact is not.

rule_body(B, Body) :-
    (   B == true
    ->  Body = (true, true)
    ;   Body = B
    ).

%   The body of a clause of another module runs in the module of the text.

body_in(Module0, Module, Body0, Body) :-
    (   Module0 == Module
    ->  Body = Body0
    ;   Body = Module0:Body0
    ).

plain_head(H, _, _, _) :-
    var(H),
    !,
    fail.
plain_head(M:H, _, Module, Head) :-
    !,
    atom(M),
    plain_head(H, M, Module, Head).
plain_head(H, Module, Module, Head) :-
    callable(H),
    (   compound(H), compound_name_arity(H, Name, 0)
    ->  Head = Name
    ;   Head = H
    ).


%   Conditional compilation. A condition is `yes`, `no`, or `maybe` where it
%   depends on more than the installed system; then both of its branches are
%   taken. `done` marks what follows a branch that was taken.

conditional(if(Condition), _, State0, State) :-
    decided(Condition, State0, Value),
    State = State0.put(conditions, [Value|State0.conditions]).
conditional(elif(Condition), _, State0, State) :-
    State0.conditions = [Value0|Values],
    (   Value0 == no, \+ is_skipped(Values)
    ->  decided(Condition, State0, Value)
    ;   after_branch(Value0, Value)
    ),
    State = State0.put(conditions, [Value|Values]).
conditional(else, _, State0, State) :-
    State0.conditions = [Value0|Values],
    (   Value0 == no
    ->  Value = yes
    ;   after_branch(Value0, Value)
    ),
    State = State0.put(conditions, [Value|Values]).
conditional(endif, _, State0, State) :-
    State0.conditions = [_|Values],
    State = State0.put(conditions, Values).

after_branch(maybe, maybe).
after_branch(yes, done).
after_branch(no, no).
after_branch(done, done).

is_skipped(Values) :-
    (   memberchk(no, Values)
    ->  true
    ;   memberchk(done, Values)
    ).

decided(Condition, State, Value) :-
    (   \+ asks_for_one_of(Condition, State.flags),
        value(Condition, Known)
    ->  Value = Known
    ;   Value = maybe
    ).

asks_for_one_of(Condition, Flags) :-
    sub_term(Goal, Condition),
    nonvar(Goal),
    Goal = current_prolog_flag(Flag, _),
    (   memberchk(Flag, Flags)
    ->  true
    ;   memberchk(any, Flags)
    ),
    !.

value(Condition, _) :-
    var(Condition),
    !,
    fail.
value(true, yes).
value(fail, no).
value(false, no).
value(\+ Condition, Value) :-
    value(Condition, Opposite),
    opposite(Opposite, Value).
value((A, B), Value) :-
    value(A, ValueA),
    (   ValueA == no
    ->  Value = no
    ;   value(B, Value)
    ).
value((A ; B), Value) :-
    value(A, ValueA),
    (   ValueA == yes
    ->  Value = yes
    ;   value(B, Value)
    ).
value(current_prolog_flag(Flag, Wanted), Value) :-
    atom(Flag),
    (   current_prolog_flag(Flag, _)
    ->  true
    ;   memberchk(Flag, [windows, unix, apple, xpce, threads, readline, wine_version, emscripten])
    ),
    holds(current_prolog_flag(Flag, Wanted), Value).
value(current_predicate(Name/Arity), yes) :-
    atom(Name),
    integer(Arity),
    functor(Goal, Name, Arity),
    predicate_property(system:Goal, built_in).
value(exists_source(Spec), Value) :-
    ground(Spec),
    Spec = library(_),
    holds(exists_source(Spec), Value).

opposite(yes, no).
opposite(no, yes).

holds(Goal, Value) :-
    (   catch(\+ \+ Goal, _, fail)
    ->  Value = yes
    ;   Value = no
    ).


%   directive(+Directive, +Line, +In, +State0, -State, -Items, ?Rest)

directive(Directive, Line, _, State, State, [doubt(Line, unread)|Items], Items) :-
    var(Directive),
    !.
directive((A, B), Line, In, State0, State, Items, Rest) :-
    !,
    directive(A, Line, In, State0, State1, Items, More),
    directive(B, Line, In, State1, State, More, Rest).
directive(M:Directive, Line, In, State0, State, Items, Rest) :-
    atom(M),
    nonvar(Directive),
    !,
    (   Directive = (A, B)
    ->  directive((M:A, M:B), Line, In, State0, State, Items, Rest)
    ;   Directive = _:_
    ->  directive(Directive, Line, In, State0, State, Items, Rest)
    ;   Items = [directive(Line, M, Directive), raw(Line, (:- M:Directive))|More],
        (   obeyed_in(Directive, M, Line, In, State0, State, More, Rest)
        ->  true
        ;   found_within(Directive, Line, State0, State, More, Rest)
        )
    ).
directive(Directive, Line, In, State0, State,
          [directive(Line, State0.module, Directive), raw(Line, (:- Directive))|Items], Rest) :-
    (   obeyed(Directive, Line, In, State0, State, Items, Rest)
    ->  true
    ;   found_within(Directive, Line, State0, State, Items, Rest)
    ).

%   found_within(+Term, +Line, +State0, -State, -Items, ?Rest): the goals in
%   a directive or a clause that change how the text is read, or what it
%   imports, if they run while the file is loaded. What a clause loads and
%   does not name, or is not there, is assumed of that goal.

found_within(Term, Line, State0, State, Items, Rest) :-
    findall(Goal,
            ( \+ Term = predicate_options(_, _, _),
              sub_term(Goal, Term),
              changes_reading(Goal),
              \+ ( Term = clause(_), \+ names_what_it_changes(Goal, State0) ) ),
            Goals),
    foldl(may_run(Term, Line), Goals, State0-Items, State-Rest).

names_what_it_changes(Goal, State) :-
    (   loading(Goal, Spec, _)
    ->  ground(Spec),
        (   is_list(Spec)
        ->  true
        ;   strip_module(Spec, _, Plain),
            catch(relative_file(Plain, State.path, _), _, fail)
        )
    ;   Goal = add_import_module(Module, _, _)
    ->  atom(Module)
    ;   true
    ).

changes_reading(Goal) :-
    compound(Goal),
    compound_name_arity(Goal, Name, Arity),
    (   memberchk(Name/Arity, [op/3, set_prolog_flag/2, create_prolog_flag/3, add_import_module/3, set_base_module/1])
    ->  true
    ;   nested_declaration(Goal, _, _)
    ->  true
    ;   memberchk(Name/Arity, ['$set_source_module'/1, '$set_source_module'/2])
    ->  true
    ;   Goal = prolog_load_context(Key, _)
    ->  \+ Key \= stream
    ;   Goal = import(Import)
    ->  ground(Import),
        Import = _:_/_
    ;   Goal = set_module(Property0)
    ->  strip_module(Property0, _, Property),
        \+ Property \= base(_)
    ;   Name \== '[|]',
        loading(Goal, Spec, _),
        \+ ( Name == autoload, atom(Spec) )        % an option
    ).

changes_module(_, prolog_load_context(_, _)).
changes_module(clause(_), '$set_source_module'(_)).
changes_module(clause(_), '$set_source_module'(_, _)).

%   A declaration that a goal makes may be made or not.

nested_declaration(Goal, Kind, Specs) :-
    declaration(Goal, Kind, Specs),
    memberchk(Kind, [tabled, meta, arithmetic, redefined, transparent]).

may_run(Term, Line, Goal, State0-Items, State-Rest) :-
    (   changes_module(Term, Goal)      % or it may read more of the text
    ->  flag_item(reading, _, Line, Item),
        flag_items(Term, reading, Item, Line, Items, Rest),
        State = State0
    ;   ( Goal = set_prolog_flag(Flag0, _) ; Goal = create_prolog_flag(Flag0, _, _) )
    ->  flag_parts(Flag0, State0, M, Flag),
        flag_kind(Flag, Kind),
        (   flag_item(Kind, Flag, Line, Item),
            \+ of_another_module(Flag, M, State0)
        ->  flag_items(Term, Kind, Item, Line, Items, Rest)
        ;   Items = Rest
        ),
        State = State0
    ;   nested_declaration(Goal, Kind, Specs)
    ->  declared_items(Kind, Specs, State0.module, State0.put(conditions, [maybe]), Items, Rest),
        State = State0
    ;   within(Term, Within),
        obeyed(Goal, Line, none, State0.put(within, Within), State1, Items, Rest)
    ->  State = State1.put(within, directive)
    ;   State = State0, Items = Rest
    ).

within(Term, Within) :-
    (   Term = clause(_)
    ->  Within = clause
    ;   Within = directive
    ).

%   A flag that a clause sets: whether a directive calls it is looked for
%   later, where it concerns the reading. A flag that is not known may be one
%   of tabling.

flag_items(clause(_), Kind, Item, Line, Items, Rest) :-
    !,
    (   Kind == reading
    ->  Items = [flags_by_call(Line)|Rest]
    ;   Kind == any
    ->  Items = [flags_by_call(Line), flag(tabling), flag(printing)|Rest]
    ;   Items = [Item|Rest]
    ).
flag_items(_, _, Item, _, [Item|Rest], Rest).

%   obeyed_in(+Directive, +M, ..): a directive for the module M. What it
%   declares is of M. Flags are those of the text, as without M.

obeyed_in(Directive, M, _, _, State, State, Items, Rest) :-
    declaration(Directive, Kind, Specs),
    !,
    declared_items(Kind, Specs, M, State, Items, Rest).
obeyed_in(Directive, _, Line, In, State0, State, Items, Rest) :-
    obeyed(Directive, Line, In, State0, State, Items, Rest).

obeyed(module(Module, Exports), _, _, State0, State, [module(Module, Exports)|Rest], Rest) :-
    atom(Module),
    declare_operators(Exports, State0.scratch),
    State = State0.put(_{module:Module, file_module:Module}).
obeyed(module(Module, Exports, _), Line, In, State0, State, Items, Rest) :-
    obeyed(module(Module, Exports), Line, In, State0, State, Items, Rest).
obeyed('$set_source_module'(Module), _, _, State0, State, Rest, Rest) :-
    atom(Module),
    State = State0.put(_{module:Module, file_module:Module}).
obeyed('$set_source_module'(Module), Line, _, State, State, [doubt(Line, flags)|Rest], Rest) :-
    var(Module).
obeyed('$set_source_module'(_, Module), Line, In, State0, State, Items, Rest) :-
    obeyed('$set_source_module'(Module), Line, In, State0, State, Items, Rest).
obeyed(op(P, T, N), _, _, State, State, Rest, Rest) :-
    declare_operators([op(P, T, N)], State.scratch).
obeyed(set_prolog_flag(Flag0, Value), Line, _, State0, State, Items, Rest) :-
    (   nonvar(Flag0), Flag0 = M:Flag
    ->  M == State0.module
    ;   Flag = Flag0
    ),
    memberchk(Flag, [double_quotes, back_quotes]),
    atom(Value),
    State = State0.put(Flag, Value),
    (   memberchk(maybe, State.conditions)
    ->  Items = [doubt(Line, unread)|Rest]
    ;   Items = Rest
    ).
obeyed(set_prolog_flag(Flag0, _), Line, _, State, State, [Item|Rest], Rest) :-
    flag_parts(Flag0, State, M, Flag),
    \+ of_another_module(Flag, M, State),
    flag_kind(Flag, Kind),
    flag_item(Kind, Flag, Line, Item).
obeyed(create_prolog_flag(Flag, Value, _), Line, In, State0, State, Items, Rest) :-
    obeyed(set_prolog_flag(Flag, Value), Line, In, State0, State, Items, Rest).
obeyed(encoding(Encoding), _, In, State, State, Rest, Rest) :-
    set_stream(In, encoding(Encoding)).
obeyed(expects_dialect(Dialect), Line, _, State, State, Items, Rest) :-
    (   Dialect == swi
    ->  Items = Rest
    ;   Items = [doubt(Line, dialect(Dialect))|Rest]
    ).
obeyed(include(Spec), Line, _, State0, State, Items, Rest) :-
    (   catch(relative_file(Spec, State0.path, Path), _, fail)
    ->  part_of_text(Path, State0, State, Items, Rest)
    ;   State = State0,
        Items = [doubt(Line, include(Spec))|Rest]
    ).
obeyed(begin_tests(Name), Line, _, State0, State, Items, Rest) :-
    atom(Name),
    atom_concat(plunit_, Name, Module),
    State = State0.put(_{module:Module, units:[Name|State0.units]}),
    (   memberchk(Name, State0.units)
    ->  Items = [doubt(Line, unit(Name))|Rest]
    ;   Items = Rest
    ).
obeyed(begin_tests(Name, _), Line, In, State0, State, Items, Rest) :-
    obeyed(begin_tests(Name), Line, In, State0, State, Items, Rest).
obeyed(end_tests(_), _, _, State0, State, Rest, Rest) :-
    State = State0.put(module, State0.file_module).
obeyed(import(Spec), Line, _, State, State, [Item|Rest], Rest) :-
    (   nonvar(Spec), Spec = M:Name/Arity, atom(M), atom(Name), integer(Arity)
    ->  Item = import(none, header(M, []), [Name/Arity])
    ;   Item = doubt(Line, inherits)
    ).
obeyed(add_import_module(_, _, _), Line, _, State, State, [doubt(Line, inherits)|Rest], Rest).
obeyed(set_base_module(_), Line, _, State, State, [doubt(Line, inherits)|Rest], Rest).
obeyed(set_module(Property0), Line, _, State, State, [doubt(Line, inherits)|Rest], Rest) :-
    strip_module(Property0, _, Property),
    \+ Property \= base(_).
obeyed(Directive, Line, _, State0, State, Items, Rest) :-
    loading(Directive, Spec, Selection),
    !,
    imported(Spec, Selection, Line, State0, State1, Items, Rest0),
    (   functor(Directive, reexport, _)
    ->  findall(reexport(F, H, S), between_items(Items, Rest0, import(F, H, S)), Again),
        append(Again, Rest, Rest0)
    ;   Rest0 = Rest
    ),
    (   Spec == library(chr)
    ->  State = State1.put(chr, yes)
    ;   State = State1
    ).
obeyed(Directive, _, _, State, State, Items, Rest) :-
    declaration(Directive, Kind, Specs),
    declared_items(Kind, Specs, State.module, State, Items, Rest).

%   Some flags of the reading are those of a module.

flag_parts(Flag0, State, M, Flag) :-
    (   nonvar(Flag0), Flag0 = M:Flag
    ->  true
    ;   M = State.module, Flag = Flag0
    ).

of_another_module(Flag, M, State) :-
    atom(M),
    M \== State.module,
    memberchk(Flag, [double_quotes, back_quotes, character_escapes, rational_syntax, var_prefix]).

%   flag_item(+Kind, +Flag, +Line, -Item): what comes of a flag that is set.

flag_item(any, _, Line, doubt(Line, flags)).
flag_item(reading, _, Line, doubt(Line, flags)).
flag_item(running, Flag, Line, doubt(Line, flag(Flag))).
flag_item(tabling, _, _, flag(tabling)).
flag_item(printing, _, _, flag(printing)).

%   Where it is not known whether a declaration is loaded, what it changes is
%   conditional.

declared_items(Kind, Specs, Module, State, Items, Rest) :-
    findall(Item, declared(Kind, Specs, Module, Item), Declared),
    (   memberchk(maybe, State.conditions)
    ->  findall(conditional(P),
                ( member(meta(P, _), Declared) ; member(redefined(P), Declared) ; member(transparent(P), Declared) ),
                Conditional)
    ;   Conditional = []
    ),
    append(Declared, More, Items),
    append(Conditional, Rest, More).

declare_operators(Exports, Scratch) :-
    forall(( member(op(P, T, N), Exports), ground(op(P, T, N)) ),
           ( strip_module(N, _, Names), catch(op(P, T, Scratch:Names), _, true) )).

declaration(dynamic(Specs), dynamic, Specs).
declaration(dynamic(Specs, _), dynamic, Specs).
declaration(thread_local(Specs), dynamic, Specs).
declaration(multifile(Specs), multifile, Specs).
declaration(table(Specs), tabled, Specs).
declaration(meta_predicate(Specs), meta, Specs).
declaration(arithmetic_function(Specs), arithmetic, Specs).
declaration(redefine_system_predicate(Specs), redefined, Specs).
declaration(module_transparent(Specs), transparent, Specs).

declared(Kind, Specs, _, _) :-
    var(Specs),
    !,
    Kind == none.
declared(Kind, (A, B), Module, Item) :-
    !,
    (   declared(Kind, A, Module, Item)
    ;   declared(Kind, B, Module, Item)
    ).
declared(_, [], _, _) :-
    !,
    fail.
declared(_, Spec, _, _) :-
    compound(Spec),
    compound_name_arity(Spec, _, 0),
    !,
    fail.
declared(Kind, [A|B], Module, Item) :-
    !,
    (   declared(Kind, A, Module, Item)
    ;   declared(Kind, B, Module, Item)
    ).
declared(tabled, as(Spec, Options), Module, Item) :-
    !,
    declared(tabled, Spec, Module, Item0),
    (   Item0 = tabled(Predicate, _),
        \+ ( nonvar(Options), Options == variant )
    ->  Item = tabled(Predicate, moded)
    ;   Item = Item0
    ).
declared(Kind, as(Spec, _), Module, Item) :-
    !,
    declared(Kind, Spec, Module, Item).
declared(Kind, M:Spec, _, Item) :-
    !,
    atom(M),
    declared(Kind, Spec, M, Item).
declared(meta, Head, Module, meta(Module:Name/Arity, Head)) :-
    !,
    callable(Head),
    functor(Head, Name, Arity).
declared(Kind, Name//Arity0, Module, Item) :-
    !,
    integer(Arity0),
    Arity is Arity0 + 2,
    declared(Kind, Name/Arity, Module, Item).
declared(redefined, Head, Module, redefined(Module:Name/Arity)) :-
    !,
    callable(Head),
    functor(Head, Name, Arity).
declared(Kind, Name/Arity, Module, Item) :-
    atom(Name),
    integer(Arity),
    !,
    declared_item(Kind, Module:Name/Arity, Item).
declared(tabled, Head, Module, Item) :-
    callable(Head),
    functor(Head, Name, Arity),
    (   arg(_, Head, Argument), nonvar(Argument)
    ->  Kind = moded
    ;   Kind = plain
    ),
    (   Item = tabled(Module:Name/Arity, Kind)
    ;   arg(_, Head, Join),
        nonvar(Join),
        joining_goal(Join, Goal),
        Item = joins(Module:Name/Arity, Goal)
    ).

%   joining_goal(+Mode, -Goal): the goal that tabling calls for two answers.

joining_goal(lattice(Join), Goal) :-
    general_goal(Join, 3, Goal).
joining_goal(po(Order), Goal) :-
    general_goal(Order, 2, Goal).

general_goal(Join, _, Join) :-
    var(Join),
    !.
general_goal(M:Join, Arity, M:Goal) :-
    !,
    general_goal(Join, Arity, Goal).
general_goal(Name/Arity, _, Goal) :-
    atom(Name),
    integer(Arity),
    !,
    functor(Goal, Name, Arity).
general_goal(Join, Arity, Goal) :-
    callable(Join),
    functor(Join, Name, Arity0),
    (   Arity0 =:= Arity
    ->  functor(Goal, Name, Arity)
    ;   More is Arity0 + Arity,
        functor(Goal, Name, More)
    ).

declared_item(dynamic, Predicate, dynamic(Predicate)).
declared_item(multifile, Predicate, multifile(Predicate)).
declared_item(tabled, Predicate, tabled(Predicate, plain)).
declared_item(arithmetic, _:PI, arithmetic(PI)).
declared_item(transparent, Predicate, transparent(Predicate)).


%   between_items(+Items, +Rest, ?Item): Item is in Items and before Rest,
%   the list's open end.

between_items(Items, Rest, Item) :-
    Items \== Rest,
    Items = [First|More],
    (   Item = First
    ;   between_items(More, Rest, Item)
    ).


%   Loading of other files: what a module exports is read from its head.

loading(use_module(Spec), Spec, all).
loading(use_module(Spec, Selection), Spec, Selection).
loading(autoload(Spec), Spec, all).
loading(autoload(Spec, Selection), Spec, Selection).
loading(reexport(Spec), Spec, all).
loading(reexport(Spec, Selection), Spec, Selection).
loading(ensure_loaded(Spec), Spec, all).
loading(consult(Spec), Spec, all).
loading(load_files(Spec), Spec, all).
loading(load_files(Spec, _), Spec, all).
loading([Spec|Specs], [Spec|Specs], all).

imported(Spec, _, Line, State, State, [doubt(Line, loads(Spec))|Rest], Rest) :-
    \+ ground(Spec),
    !.
imported([], _, _, State, State, Rest, Rest) :- !.
imported([Spec|Specs], Selection, Line, State0, State, Items, Rest) :-
    !,
    imported(Spec, Selection, Line, State0, State1, Items, More),
    imported(Specs, Selection, Line, State1, State, More, Rest).
imported(_:Spec, Selection, Line, State0, State, Items, Rest) :-
    !,
    imported(Spec, Selection, Line, State0, State, Items, Rest).
imported(Spec, Selection, _, State0, State, Items, Rest) :-
    module_header(Spec, State0.path, Path, Header),
    !,
    Header = header(Module, Exports),
    (   Module == none,
        State0.within == directive
    ->  loaded_text(Path, State0, State, Items, Rest)
    ;   State = State0,
        Items = [import(Path, Header, Selection)|Rest],
        declare_operators(Exports, State0.scratch)
    ).
imported(Spec, Selection, _, State, State, [import(Spec, header(none, []), Selection)|Rest], Rest).

%   A file without a module becomes a part of the text that loads it, once for
%   each module.

loaded_text(Path, State0, State, Items, Rest) :-
    (   memberchk(State0.module-Path, State0.loaded)
    ->  State = State0,
        Items = Rest
    ;   part_of_text(Path, State0, State1, Items, Rest),
        State = State1.put(_{module:State0.module, file_module:State0.file_module})
    ).

part_of_text(Path, State0, State, Items, Rest) :-
    Loaded = [State0.module-Path|State0.loaded],
    read_text(Path, State0.put(_{included:yes, place:Path, path:Path, loaded:Loaded}), State1, Items, Rest),
    State = State1.put(_{included:State0.included, place:State0.place, path:State0.path}).

%!  module_header(+Spec, +From, -Path, -Header) is semidet.
%
%   Header is header(Module, Exports) of the module file that Spec names,
%   seen from the file From. It is kept: a file does not change meanwhile.

module_header(Spec, From, Path, Header) :-
    catch(relative_file(Spec, From, Path), _, fail),
    path_header(Path, Header).

path_header(Path, Header) :-
    (   kept_header(Path, Kept)
    ->  Header = Kept
    ;   read_header(Path, Header),
        assertz(kept_header(Path, Header))
    ).

%   Files of SWI-Prolog's library name each other by aliases that the library
%   makes when it is loaded.

relative_file(Spec0, From, Path) :-
    (   library_alias(Spec0, Spec),
        is_library_file(From)
    ->  true
    ;   Spec = Spec0
    ),
    absolute_file_name(Spec, Path,
                       [ file_type(prolog), access(read), relative_to(From),
                         file_errors(fail) ]).

library_alias(chr(File), library(chr/File)).
library_alias(pldoc(File), library(pldoc/File)).

%!  is_library_file(+Path) is semidet.
%
%   Path is of SWI-Prolog's own files.

is_library_file(Path) :-
    atom(Path),
    current_prolog_flag(home, Home),
    sub_atom(Path, 0, _, _, Home).

read_header(Path, Header) :-
    setup_call_cleanup(open_text(Path, In),
                       ( skip_interpreter(In), first_module(In, Header) ),
                       close(In)).

first_module(In, Header) :-
    catch(read_term(In, Term, [module(real_source)]), _, Term = end_of_file),
    (   nonvar(Term), Term = (:- Directive), head_of(Directive, Header)
    ->  true
    ;   nonvar(Term), Term = (:- Directive), before_module(Directive, In)
    ->  first_module(In, Header)
    ;   Header = header(none, [])
    ).

head_of(Directive, header(Module, Exports)) :-
    nonvar(Directive),
    (   Directive = module(Module, Exports)
    ;   Directive = module(Module, Exports, _)
    ),
    atom(Module),
    is_list(Exports),
    !.

before_module(Directive, In) :-
    nonvar(Directive),
    (   Directive = encoding(Encoding)
    ->  set_stream(In, encoding(Encoding))
    ;   memberchk(Directive, [if(_), set_prolog_flag(_, _)])
    ).


%   The source of the items.

text_source(Wide, text(Path, Texts, Operators, Items), Source) :-
    (   memberchk(module(Module, Exports0), Items)
    ->  convlist(exported, Exports0, Exports)
    ;   Module = user, Exports = []
    ),
    findall(P-clause(L, H, B), member(clause(P, L, H, B), Items), Pairs0),
    asserted(Items, Module, Asserted),
    findall(P-clause(L, H, B), member(asserts(P, L, H, B), Asserted), Pairs1),
    collected(P, member(dynamic(P), Items), Dynamic0),
    collected(P, member(dynamic(P), Asserted), Dynamic1),
    ord_union_(Dynamic0, Dynamic1, Dynamic),
    collected(P, uncertain(Items, Pairs0, Dynamic1, P), Uncertain),
    collected(P, member(multifile(P), Items), Multifile),
    collected(P, member(conditional(P), Items), Conditional),
    collected(P-K, member(tabled(P, K), Items), Tabled),
    collected(P-H, member(meta(P, H), Items), Meta),
    collected(F, member(arithmetic(F), Items), Arithmetic),
    collected(P, member(redefined(P), Items), Redefined),
    collected(P, member(transparent(P), Items), Transparent),
    findall(import(F, H, S), member(import(F, H, S), Items), Imports),
    findall(import(F, H, S), member(reexport(F, H, S), Items), Reexports),
    findall(P-clause(L, H, true), member(added(P, L, H), Asserted), Pairs2),
    partition(known_expansion(Items), Pairs0, Known, Expanding0),
    append(Expanding0, Pairs2, Expanding),
    findall(expansion(K, T), own_expansion(Path, Expanding, Module, K, T), Expansions0),
    findall(Expansion, ( member(Other-Expansion, Wide), Other \== Path ), Expansions1),
    append(Expansions0, Expansions1, Expansions),
    findall(Result, expanded(Items, Known, Module, Expansions, Result), Results),
    findall(P-clause(L, H, B), member(clause(P, L, H, B), Results), Pairs3),
    append([Pairs0, Pairs1, Pairs3], Pairs),
    keysort(Pairs, Sorted),
    group_pairs_by_key(Sorted, Groups),
    list_to_assoc(Groups, Clauses),
    findall(doubt(L, D), member(doubt(L, D), Items), Doubts0),
    findall(Place, member(unread(Place), Items), Unread),
    findall(doubt(L, D),
            (   \+ looked_at(Path, Module), rewritten_clause(Items, Expansions, L, D)
            ;   member(doubt(L, D), Results)
            ),
            Doubts1),
    findall(doubt(L, flags), flags_by_call(Items, Clauses, L), Doubts2),
    findall(doubt(L, asserts), member(unknown_assert(L), Asserted), Adds0),
    sort(Adds0, Adds),
    append(Pairs, Pairs2, Written),
    file_doubts(Items, Written, Doubts3),
    append([Doubts0, Doubts1, Doubts2, Doubts3], Doubts),
    findall(directive(L, M, D), member(directive(L, M, D), Items), Directives),
    mentions(Items, Mentions),
    collected(K, member(flag(K), Items), Flags),
    findall(P-G, member(joins(P, G), Items), Joins),
    (   member(raw(_, Raw), Items), has_atom(Raw, format_predicate)
    ->  Letters = yes
    ;   Letters = no
    ),
    Source = source{path:Path, texts:Texts, operators:Operators, module:Module, exports:Exports, clauses:Clauses,
                    dynamic:Dynamic,
                    multifile:Multifile, conditional:Conditional, tabled:Tabled, meta:Meta,
                    imports:Imports, reexports:Reexports, arithmetic:Arithmetic, redefined:Redefined,
                    transparent:Transparent,
                    expansions:Expansions, letters:Letters,
                    uncertain:Uncertain, doubts:Doubts, unread:Unread, adds:Adds, directives:Directives,
                    mentions:Mentions, flags:Flags, joins:Joins}.

%   uncertain(+Items, +Pairs, +Dynamic, -Predicate): nothing but goals that may
%   not have run yet makes Predicate, or a goal abolishes it.

uncertain(Items, Pairs, Dynamic, Predicate) :-
    member(Predicate, Dynamic),
    \+ memberchk(Predicate-_, Pairs),
    \+ memberchk(dynamic(Predicate), Items),
    \+ memberchk(multifile(Predicate), Items).
uncertain(Items, Pairs, _, Predicate) :-
    member(raw(_, Term), Items),
    sub_term(Goal, Term),
    nonvar(Goal),
    (   Goal = abolish(Abolished)
    ->  true
    ;   Goal = abolish(Name, Arity),
        Abolished = Name/Arity
    ),
    abolished(Abolished, Pairs, Predicate).

%   abolished(+Abolished, +Pairs, -Predicate): of any module, or any predicate.

abolished(Abolished, Pairs, Predicate) :-
    strip_module(Abolished, _, PI),
    (   ground(PI),
        PI = _/_
    ->  member((M:PI)-_, Pairs),
        Predicate = M:PI
    ;   Predicate = any
    ).

has_atom(Term, Name) :-
    sub_term(Sub, Term),
    (   atom(Sub)
    ->  Sub == Name
    ;   compound(Sub),
        compound_name_arity(Sub, Name, _)
    ),
    !.

collected(Template, Goal, Set) :-
    findall(Template, Goal, List),
    sort(List, Set).

ord_union_(A, B, Union) :-
    append(A, B, Both),
    sort(Both, Union).

exported(Name/Arity, Name/Arity) :-
    atom(Name),
    integer(Arity).
exported(Name//Arity0, Name/Arity) :-
    atom(Name),
    integer(Arity0),
    Arity is Arity0 + 2.

%   What a file rewrites when it is loaded: the first arguments of its own
%   term_expansion and goal_expansion.

expansion_of(Pairs, Modules, Kind, Pattern) :-
    member((M:Name/_)-clause(_, Head, _), Pairs),
    memberchk(M, Modules),
    expansion_kind(Name, Kind),
    arg(1, Head, Pattern0),
    (   Pattern = Pattern0
    ;   nonvar(Pattern0),
        Pattern0 = _:Pattern
    ).

own_expansion(Path, Pairs, Module, Kind, Pattern) :-
    \+ looked_at(Path, Module),
    expansion_of(Pairs, [user, system, Module], Kind, Pattern).

%   What these modules of the library rewrite of their own was looked at.
%   apply: facts for library(sandbox) come of it. clpfd: its three facts become
%   clauses of predicates that have none in the
%   text; constraints become tests before the call of the constraint; (cis)/2
%   and its like are not defined, so they are assumed to end.

looked_at(Path, Module) :-
    memberchk(Module, [apply, clpfd]),
    is_library_file(Path).

%   wide_expansion(+Items, -Kind, -Pattern): what a file rewrites of others.

wide_expansion(Items, Kind, Pattern) :-
    member(clause(M:PI, L, H, B), Items),
    expansion_of([(M:PI)-clause(L, H, B)], [user, system], Kind, Pattern).

expansion_kind(term_expansion, term).
expansion_kind(goal_expansion, goal).

%   known_expansion(+Items, +Pair): a clause of the file's own term_expansion
%   of which it is known what comes of a term: clauses that are instances of
%   some that are in its text.

known_expansion(Items, (_:term_expansion/2)-clause(_, Head, Body)) :-
    arg(1, Head, Pattern),
    nonvar(Pattern),
    arg(2, Head, Out),
    instances(Out, Body, Items, Results),
    forall(member(Result, Results), catch(plain_clause(Result, user, _, _, _), _, fail)).

%   instances(+Out, +Body, +Items, -Results): once Body has succeeded, Out is
%   an instance of one of Results, or a list of such.

instances(Out, Body, Items, Results) :-
    conjuncts(Body, Goals, []),
    instances_of(Out, Goals, Items, Results).

instances_of(Out, Goals, Items, Results) :-
    (   var(Out)
    ->  select(Goal, Goals, Others),
        nonvar(Goal),
        (   gives_list(Goal, Out, Items, Results)
        ;   Goal = (A = B),
            A == Out,
            nonvar(B),
            instances_of(B, Others, Items, Results)
        )
    ;   Out = [First|More]
    ->  instances_of(First, Goals, Items, Results0),
        instances_of(More, Goals, Items, Results1),
        append(Results0, Results1, Results)
    ;   Out == []
    ->  Results = []
    ;   Out \= (:- _),
        Results = [Out]
    ),
    !.

conjuncts(Body, Goals, Rest) :-
    (   nonvar(Body),
        Body = (A, B)
    ->  conjuncts(A, Goals, More),
        conjuncts(B, More, Rest)
    ;   Goals = [Body|Rest]
    ).

gives_list(findall(Template, Goal, List), Out, Items, Results) :-
    List == Out,
    (   nonvar(Template)
    ->  Results = [Template]
    ;   nonvar(Goal),
        Goal =.. [Name|Args],
        nth1(Place, Args, Arg),
        Arg == Template,
        head_arguments(Name, Args, Place, Items, Results)
    ).
gives_list(maplist(Closure, _, List), Out, Items, Results) :-
    List == Out,
    \+ member(clause(_:maplist/3, _, _, _), Items),
    atom(Closure),
    head_arguments(Closure, [_, _], 2, Items, Results).

head_arguments(Name, Args, Place, Items, Results) :-
    length(Args, Arity),
    findall(Result,
            ( member(clause(_:Name/Arity, _, Head, _), Items), arg(Place, Head, Result) ),
            Results),
    \+ member(dynamic(_:Name/Arity), Items),
    \+ member(multifile(_:Name/Arity), Items),
    Results = [_|_],
    forall(member(Result, Results), nonvar(Result)).

%   expanded(+Items, +Known, +Module, +Expansions, -Result): a clause
%   that comes of a term, or a doubt where that may be rewritten again.

expanded(Items, Known, Module, Expansions, Found) :-
    member(raw(Line, Term), Items),
    \+ expansion_clause(Term),
    member(_-clause(_, Head0, Body0), Known),
    arg(1, Head0, Pattern0),
    \+ Term \= Pattern0,
    copy_term(Head0-Body0, Head-Body),
    arg(1, Head, Term),
    arg(2, Head, Out),
    instances(Out, Body, Items, Results),
    member(Result, Results),
    Result \== end_of_file,
    (   is_rewritten(Expansions, Result)
    ->  Found = doubt(Line, rewritten)
    ;   plain_clause(Result, Module, M, ResultHead, ResultBody),
        functor(ResultHead, Name, Arity),
        Found = clause(M:Name/Arity, Line, ResultHead, ResultBody)
    ).

%   Flags that a clause sets, if a directive may call one of the clauses.

flags_by_call(Items, Clauses, Line) :-
    memberchk(flags_by_call(_), Items),
    once(( member(directive(_, M, Directive), Items),
           runs_goals(Directive),
           sub_term(Goal, Directive),
           callable(Goal),
           \+ ( compound(Goal), compound_name_arity(Goal, _, 0) ),
           functor(Goal, Name, Arity),
           get_assoc(M:Name/Arity, Clauses, _) )),
    member(flags_by_call(Line), Items).

runs_goals(Directive) :-
    \+ declaration(Directive, _, _),
    \+ loading(Directive, _, _),
    (   compound(Directive)
    ->  compound_name_arity(Directive, Name, _)
    ;   Name = Directive
    ),
    \+ ( Name == (initialization), Directive \= initialization(_, now) ),
    \+ memberchk(Name, [module, discontiguous, public, volatile, det, op, set_prolog_flag, create_prolog_flag,
                        predicate_options, noprofile, '$hide', non_terminal]).

rewritten_clause(Items, Expansions, Line, rewritten) :-
    member(raw(Line, Term), Items),
    \+ expansion_clause(Term),
    is_rewritten(Expansions, Term).

is_rewritten(Expansions, Term) :-
    member(expansion(term, Pattern), Expansions),
    \+ Term \= Pattern.

expansion_clause(Term) :-
    catch(plain_clause(Term, user, _, Head, _), _, fail),
    functor(Head, Name, _),
    expansion_kind(Name, _).


%   Clauses that the file's own goals add: asserts(Predicate,Line,Head,Body)
%   for a rule, added(Predicate,Line,Head) for each clause, dynamic(Predicate),
%   and unknown_assert(Line) where a clause
%   that is added is not known.

asserted(Items, Module, Asserted) :-
    findall(Found, asserted_in(Items, Module, Found), Asserted).

asserted_in(Items, _, Found) :-
    member(clause(M:_, Line, Head, Body), Items),
    (   asserted_by(Body, M, Line, Found)
    ;   sub_term(Name, Head),           % what a fact may give to a call
        Name \== Head,
        atom(Name),
        adds_name(Name),
        Found = unknown_assert(Line)
    ).
asserted_in(Items, _, Found) :-
    member(directive(Line, M, Goal), Items),
    asserted_by(Goal, M, Line, Found).
asserted_in(Items, _, unknown_assert(Line)) :-
    member(raw(Line, Term), Items),
    sub_term(Text, Term),
    (   atom(Text)
    ;   string(Text)
    ),
    has_adding_goal(Text).

%   A text from which a goal that adds clauses may be read.

has_adding_goal(Text) :-
    string_length(Text, Length),
    Length > 8,
    member(Start, ["assert(", "asserta(", "assertz("]),
    sub_string(Text, _, _, _, Start),
    !.

asserted_by(Body, Module, Line, Found) :-
    goal_within(Body, Module, Goal, Context),
    (   atom(Goal)
    ->  adds_name(Goal),
        Found = unknown_assert(Line)
    ;   compound_name_arguments(Goal, Name, [Clause|More]),
        (   adds_name(Name)
        ->  (   more_fits(More), atom(Context), catch(clause_parts(Clause, Context, M, Head, B), _, fail)
            ->  functor(Head, N, A),
                (   Found = dynamic(M:N/A)
                ;   Found = added(M:N/A, Line, Head)
                ;   B \== true,
                    B \== (true, true),
                    Found = asserts(M:N/A, Line, Head, B)
                )
            ;   Found = unknown_assert(Line)
            )
        ;   Name == (dynamic),
            atom(Context),
            declared(dynamic, Clause, Context, Found)
        )
    ).

%   goal_within(+Term, +Module0, -Goal, -Module): Goal is an atom or a compound
%   term in Term, and Module is that of the text, or what is before a colon
%   or after an @ around it.

goal_within(Term, Module, Term, Module) :-
    atom(Term),
    !.
goal_within(Term, Module0, Goal, Module) :-
    compound(Term),
    (   ( Term = M:Inner ; Term = @(Inner, M) )
    ->  goal_within(Inner, M, Goal, Module)
    ;   compound_name_arity(Term, _, Arity),
        Arity > 0,
        (   Goal = Term,
            Module = Module0
        ;   arg(_, Term, Argument),
            goal_within(Argument, Module0, Goal, Module)
        )
    ).

%!  adds_unknown_clause(+Goal, +Module) is semidet.
%
%   Goal, of Module, adds a clause of which the head is not known.

adds_unknown_clause(Goal, Module) :-
    compound(Goal),
    compound_name_arguments(Goal, Name, [Clause|More]),
    adds_name(Name),
    \+ ( more_fits(More), atom(Module), catch(clause_parts(Clause, Module, _, _, _), _, fail) ).

adds_name(assert).
adds_name(asserta).
adds_name(assertz).

more_fits([]).
more_fits([_]).


%!  source_clauses(+Source, +Predicate, -Clauses) is det.

source_clauses(Source, Predicate, Clauses) :-
    (   get_assoc(Predicate, Source.clauses, Found)
    ->  Clauses = Found
    ;   Clauses = []
    ).

%!  is_defined(+Source, +Predicate) is semidet.
%
%   Predicate has clauses in Source, or is declared to have them.

is_defined(Source, Predicate) :-
    (   get_assoc(Predicate, Source.clauses, _)
    ->  true
    ;   memberchk(Predicate, Source.dynamic)
    ->  true
    ;   memberchk(Predicate, Source.multifile)
    ).
