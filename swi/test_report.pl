:- encoding(utf8).

% Tests of what cti-file says for programs, of --require, --trust and cti-hold. Run them at the top of the repository,
% once bin/cti is built:
%
%     CTI=bin/cti swipl -g run_tests -t halt swi/test_report.pl

:- use_module(library(apply)).
:- use_module(library(filesex)).
:- use_module(library(http/json)).
:- use_module(library(lists)).
:- use_module(library(plunit)).
:- use_module(library(process)).
:- use_module(library(readutil)).
:- use_module(requirements).

:- meta_predicate with_files(+, 0).

%   with_files(+Files, :Goal): Goal runs in a directory that has Files, a list of
%   Name-Text, and nothing else.

with_files(Files, Goal) :-
    with_program(Program),
    tmp_file(report, Directory),
    make_directory(Directory),
    working_directory(Before, Directory),
    setenv('CTI', Program),
    call_cleanup(( forall(member(Name-Text, Files), write_file(Name, Text)), once(Goal) ),
                 ( working_directory(_, Before), delete_directory_and_contents(Directory) )).

with_program(Program) :-
    getenv('CTI', Path),
    absolute_file_name(Path, Program).

write_file(Name, Text) :-
    setup_call_cleanup(open(Name, write, Out, [encoding(utf8)]), write(Out, Text), close(Out)).

:- dynamic scripts/1.
:- prolog_load_context(directory, Directory), assertz(scripts(Directory)).

%   run(+Script, +Words, -Out, -Err, -Status)

run(Script, Words, Out, Err, Status) :-
    scripts(Directory),
    directory_file_path(Directory, Script, Path),
    process_create(Path, Words,
                   [ stdout(pipe(O, [encoding(utf8)])), stderr(pipe(E, [encoding(utf8)])), process(Process) ]),
    call_cleanup(read_string(O, _, Out), close(O)),
    call_cleanup(read_string(E, _, Err), close(E)),
    process_wait(Process, exit(Status)).

run(Words, Out, Status) :-
    run('cti-file', Words, Out, _, Status).

facts(Files, Words, Facts) :-
    with_files(Files, run(['--facts'|Words], Out, _)),
    terms_of(Out, Facts).

terms_of(Text, Terms) :-
    setup_call_cleanup(open_string(Text, In), read_terms(In, Terms), close(In)).

read_terms(In, Terms) :-
    read_term(In, Term, []),
    (   Term == end_of_file
    ->  Terms = []
    ;   Terms = [Term|More],
        read_terms(In, More)
    ).

json(Files, Words, Json) :-
    with_files(Files, run(Words, Out, _)),
    json_of(Out, Json).

json_of(Text, Json) :-
    setup_call_cleanup(open_string(Text, In), json_read_dict(In, Json), close(In)).

has_line(Text, Line) :-
    split_string(Text, "\n", "", Lines),
    memberchk(Line, Lines).

%   app/3 ends by its first or third list; q/1 never does; r/1 calls any goal.

program("a.pl"-":- module(a, [app/3, q/1]).\napp([], L, L).\napp([H|T], L, [H|R]) :-\n    app(T, L, R).\n\
q(X) :-\n    q(X).\nr(X) :- call(X).\n").


:- begin_tests(facts).

test(head_and_files, [Facts = [cti_file(1, _), file('a.pl')|_]]) :-
    program(File),
    facts([File], ['a.pl'], Facts).
test(predicates, Places == [app/3-2-exported, q/1-5-exported, r/1-7-local]) :-
    program(File),
    facts([File], ['a.pl'], Facts),
    findall(PI-Line-Exported, member(predicate('a.pl', PI, Line, 1, Exported), Facts), Places).
test(modes, Modes == [app/3-[1]-length, app/3-[3]-length, r/1-[]-ground]) :-
    program(File),
    facts([File], ['a.pl'], Facts),
    findall(PI-Set-By, member(mode('a.pl', PI, Set, By), Facts), Modes).
test(no_mode_and_its_culprit) :-
    program(File),
    facts([File], ['a.pl'], Facts),
    memberchk(no_mode('a.pl', q/1, Text), Facts),
    string(Text),
    memberchk(culprit('a.pl', q/1, 'a.pl', 6, 5, _), Facts).
test(assumption_and_who_relies) :-
    program(File),
    facts([File], ['a.pl'], Facts),
    memberchk(assumption(Number, 'a.pl', 7, r/1, goal, _), Facts),
    findall(PI, member(relies('a.pl', PI, Number), Facts), Relying),
    Relying == [r/1].
test(a_fact_in_a_line) :-
    program(File),
    with_files([File], run(['--facts', 'a.pl'], Out, 0)),
    split_string(Out, "\n", "", [Comment|Lines0]),
    sub_string(Comment, 0, 1, _, "%"),
    append(Lines, [""], Lines0),
    forall(member(Line, Lines), ( term_string(_, Line), sub_string(Line, _, 1, 0, ".") )),
    !.
test(any_name, PIs == ['A b\n''ö'/1, (:-)/3, {}/1]) :-
    facts(["a.pl"-"'A b\\n''ö'(a).\n:-(a, b, c).\n{}(a).\n"], ['a.pl'], Facts),
    findall(PI, member(predicate('a.pl', PI, _, _, _), Facts), PIs).
test(several_files, Files == ['a.pl', 'd/b.pl']) :-
    program(File),
    with_files([File],
               ( make_directory(d), write_file('d/b.pl', ":- module(b, [p/1]).\np(a).\n"),
                 run(['--facts', 'a.pl', 'd/b.pl'], Out, _) )),
    terms_of(Out, Facts),
    findall(One, member(file(One), Facts), Files).

:- end_tests(facts).


:- begin_tests(json).

test(predicates, Names == ["app/3", "q/1", "r/1"]) :-
    program(File),
    json([File], ['--json', 'a.pl'], Json),
    findall(Name, ( member(P, Json.predicates), Name = P.name ), Names).
test(mode, Modes == [[1]-"length", [3]-"length"]) :-
    program(File),
    json([File], ['--json', 'a.pl'], Json),
    Json.predicates = [P|_],
    findall(Arguments-By, ( member(Mode, P.modes), _{arguments:Arguments, by:By} :< Mode ), Modes).
test(reason, Line-Column == 6-5) :-
    program(File),
    json([File], ['--json', 'a.pl'], Json),
    Json.predicates = [_, P|_],
    P.modes == [],
    P.reason.places = [Place],
    Place.file == "a.pl",
    Line = Place.line, Column = Place.column.
test(no_reason_where_there_is_a_mode) :-
    program(File),
    json([File], ['--json', 'a.pl'], Json),
    Json.predicates = [P|_],
    P.reason == null.
test(assumption, Numbers == [1]) :-
    program(File),
    json([File], ['--json', 'a.pl'], Json),
    Json.assumptions = [A],
    A.number == 1, A.line == 7, A.predicate == "r/1",
    last(Json.predicates, P),
    Numbers = P.assumptions.
test(names_of_constants, Names == ["false/0", "null/1", "öä/1"]) :-
    json(["a.pl"-"null(a).\nöä(a).\nfalse.\n"], ['--json', 'a.pl'], Json),
    findall(Name, ( member(P, Json.predicates), Name = P.name ), Names0),
    sort(Names0, Names1),
    (   memberchk("false/0", Names1)           % which no file can define
    ->  Names = Names1
    ;   sort(["false/0"|Names1], Names)
    ).
test(no_such_file, Status-Failed == 4-4) :-
    with_files([], run(['--json', 'none.pl'], Out, Status)),
    json_of(Out, Json),
    Json.failures = [Failure],
    Failed = Failure.status.
test(unread, Status-Line == 5-2) :-
    with_files(["a.pl"-"p(a).\nq(.\n"], run(['--json', 'a.pl'], Out, Status)),
    json_of(Out, Json),
    Json.unread = [Place],
    Line = Place.line.

:- end_tests(json).


%   sarif_fault(+Document, -Fault): what the schema of SARIF 2.1.0 requires, and
%   is not there.

sarif_fault(Document, version) :-
    \+ get_dict(version, Document, "2.1.0").
sarif_fault(Document, schema) :-
    \+ ( get_dict('$schema', Document, Schema), sub_string(Schema, _, _, 0, "sarif-2.1.0.json") ).
sarif_fault(Document, runs) :-
    \+ ( get_dict(runs, Document, [_|_]) ).
sarif_fault(Document, driver) :-
    member(Run, Document.runs),
    \+ ( Driver = Run.tool.driver, string(Driver.name), string(Driver.version), Driver.rules = [_|_] ).
sarif_fault(Document, rule(Rule)) :-
    member(Run, Document.runs),
    member(Rule, Run.tool.driver.rules),
    \+ ( string(Rule.id), string(Rule.shortDescription.text), is_level(Rule.defaultConfiguration.level) ).
sarif_fault(Document, same_rules) :-
    member(Run, Document.runs),
    findall(Id, ( member(Rule, Run.tool.driver.rules), Id = Rule.id ), Ids),
    \+ is_set(Ids).
sarif_fault(Document, result(Result)) :-
    member(Run, Document.runs),
    member(Result, Run.results),
    \+ ( string(Result.message.text),
         is_level(Result.level),
         nth0(Result.ruleIndex, Run.tool.driver.rules, Rule),
         Rule.id == Result.ruleId,
         Result.locations = [_] ).
sarif_fault(Document, location(Location)) :-
    member(Run, Document.runs),
    member(Result, Run.results),
    (   member(Location, Result.locations)
    ;   get_dict(relatedLocations, Result, Others),
        member(Location, Others)
    ),
    \+ ( Physical = Location.physicalLocation,
         string(Physical.artifactLocation.uri),
         \+ sub_string(Physical.artifactLocation.uri, _, _, _, " "),
         integer(Physical.region.startLine), Physical.region.startLine >= 1,
         integer(Physical.region.startColumn), Physical.region.startColumn >= 1 ).

is_level(Level) :-
    memberchk(Level, ["none", "note", "warning", "error"]).

results(Json, Results) :-
    Json.runs = [Run],
    findall(result(Rule, Level, Uri, Line, Column),
            ( member(Result, Run.results),
              _{ruleId:Rule, level:Level, locations:[Location]} :< Result,
              Uri = Location.physicalLocation.artifactLocation.uri,
              Line = Location.physicalLocation.region.startLine,
              Column = Location.physicalLocation.region.startColumn ),
            Results).

:- begin_tests(sarif).

test(required_fields, Faults == []) :-
    program(File),
    json([File], ['--sarif', 'a.pl'], Json),
    findall(Fault, sarif_fault(Json, Fault), Faults).
test(required_fields_of_errors, Faults == []) :-
    with_files(["a.pl"-"p(.\n"], run(['--sarif', 'a.pl'], Out, 5)),
    json_of(Out, Json),
    results(Json, Results),
    memberchk(result("unread", "error", "a.pl", 1, _), Results),
    findall(Fault, sarif_fault(Json, Fault), Faults).
test(a_fault_is_found, [nondet]) :-
    sarif_fault(_{version:"2.1.0", runs:[]}, _).
test(results, Results == [ result("no-mode", "warning", "a.pl", 5, 1), result("assumption", "note", "a.pl", 7, 1) ]) :-
    program(File),
    json([File], ['--sarif', 'a.pl'], Json),
    results(Json, Results).
test(culprit_is_related, Line-Column == 6-5) :-
    program(File),
    json([File], ['--sarif', 'a.pl'], Json),
    Json.runs = [Run],
    Run.results = [Result|_],
    Result.relatedLocations = [Location],
    Line = Location.physicalLocation.region.startLine,
    Column = Location.physicalLocation.region.startColumn.
test(name_with_a_blank, Uris == ["b%20c.pl"]) :-
    json(["b c.pl"-"q(X) :- q(X).\n"], ['--sarif', 'b c.pl'], Json),
    results(Json, Results),
    findall(Uri, member(result(_, _, Uri, _, _), Results), Uris).
test(no_such_file, Faults == []) :-
    with_files([], run(['--sarif', 'none.pl'], Out, 4)),
    json_of(Out, Json),
    results(Json, [result("failed", "error", "none.pl", 1, 1)]),
    findall(Fault, sarif_fault(Json, Fault), Faults).

:- end_tests(sarif).


:- begin_tests(lines).

test(predicate_and_culprit) :-
    program(File),
    with_files([File], run(['--lines', 'a.pl'], Out, 0)),
    has_line(Out, "a.pl:2:1: info: app/3: [[1],[3]] by length"),
    has_line(Out, "a.pl:6:5: note: q/1: nothing gets smaller at this call"),
    has_line(Out, "a.pl:7:1: info: r/1: [[]] if 1").
test(each_line_has_a_place) :-
    program(File),
    with_files([File], run(['--lines', 'a.pl'], Out, 0)),
    split_string(Out, "\n", "", Lines0),
    append(Lines, [""], Lines0),
    forall(member(Line, Lines),
           ( split_string(Line, ":", " ", ["a.pl", L, C, Level|_]),
             number_string(_, L), number_string(_, C),
             memberchk(Level, ["error", "warning", "note", "info"]) )),
    !.

:- end_tests(lines).


%   Facts of a file before, and its text now.

app_facts("cti_file(1, '0.4').\nfile('a.pl').\npredicate('a.pl', app/3, 1, 1, local).\n").

%   now(+Modes, +Text, -Status, -Err): Modes are of before.

now(Modes, Text, Status, Err) :-
    app_facts(Start),
    string_concat(Start, Modes, Facts),
    with_files(["kept.facts"-Facts, "a.pl"-Text], run('cti-file', ['--require=kept.facts', 'a.pl'], _, Err, Status)).

loops("app(X, Y, Z) :- app(X, Y, Z).\n").
app_text("app([], L, L).\napp([H|T], L, [H|R]) :- app(T, L, R).\n").

:- begin_tests(require).

test(holds, Status == 0) :-
    app_text(Text),
    now("mode('a.pl', app/3, [1], length).\nmode('a.pl', app/3, [3], length).\n", Text, Status, _).
test(lost, Status == 10) :-
    loops(Text),
    now("mode('a.pl', app/3, [1], length).\n", Text, Status, Err),
    sub_string(Err, 0, _, _, "a.pl:1:1: error: app/3: "),
    once(sub_string(Err, _, _, _, "[[1]] by length")).
test(a_smaller_mode_will_do, Status == 0) :-
    app_text(Text),
    now("mode('a.pl', app/3, [1, 2], ground).\n", Text, Status, _).
test(a_greater_mode_will_not, Status == 10) :-
    app_text(Text),
    now("mode('a.pl', app/3, [], ground).\n", Text, Status, _).
test(another_argument_will_not, Status == 10) :-
    app_text(Text),
    now("mode('a.pl', app/3, [2], ground).\n", Text, Status, _).
test(length_where_ground_was, Status == 0) :-
    app_text(Text),
    now("mode('a.pl', app/3, [1], ground).\n", Text, Status, _).
test(ground_where_length_was, Status == 10) :-
    now("mode('a.pl', app/3, [1], length).\n", "app(f(X), Y, Z) :- app(X, Y, Z).\n", Status, _).
test(gone, Status == 10) :-
    now("mode('a.pl', app/3, [1], ground).\n", "b(a).\n", Status, Err),
    sub_string(Err, 0, _, _, "a.pl:1:1: error: app/3: ").
test(none_before_is_no_loss, Status == 0) :-
    loops(Text),
    now("no_mode('a.pl', app/3, \"\").\n", Text, Status, _).
test(another_file_is_left_out, Status == 0) :-
    app_text(Text),
    now("mode('b.pl', b/1, [1], ground).\n", Text, Status, _).
test(more_is_assumed, Status == 0) :-
    now("mode('a.pl', app/3, [1], ground).\n", "app(X, _, _) :- call(X).\n", Status, Err),
    sub_string(Err, 0, _, _, "a.pl:1:1: warning: app/3: ").
test(no_more_is_assumed, Status-Err == 0-"") :-
    now("mode('a.pl', app/3, [], ground).\nrelies('a.pl', app/3, 7).\nassumption(7, 'a.pl', 9, app/3, goal, \"\").\n",
        "app(X, _, _) :- call(X).\n", Status, Err).
test(a_file_that_is_not_kept) :-
    app_facts(Facts),
    with_files(["kept.facts"-Facts, "b.pl"-"p(a).\n"], run('cti-file', ['--require=kept.facts', 'b.pl'], _, Err, 0)),
    sub_string(Err, 0, _, _, "b.pl:1:1: note: ").
test(own_facts_hold, Status == 0) :-
    program(File),
    with_files([File],
               ( run(['--facts', 'a.pl'], Facts, 0), write_file('kept.facts', Facts),
                 run(['--require', 'kept.facts', 'a.pl'], _, Status) )).
test(exported, Status-Count == 10-1) :-
    program(File),
    with_files([File], run('cti-file', ['--require=exported', 'a.pl'], _, Err, Status)),
    split_string(Err, "\n", "", Lines0),
    exclude(==(""), Lines0, Lines),
    findall(Line, ( member(Line, Lines), sub_string(Line, 0, _, _, "a.pl:5:1: error: q/1: ") ), Errors),
    length(Errors, Count).
test(exported_has_modes, Status == 0) :-
    with_files(["a.pl"-":- module(a, [p/1]).\np(a).\nq(X) :- q(X).\n"], run(['--require=exported', 'a.pl'], _, Status)).
test(all, Status == 10) :-
    with_files(["a.pl"-":- module(a, [p/1]).\np(a).\nq(X) :- q(X).\n"], run(['--require=all', 'a.pl'], _, Status)).
test(no_facts, Status == 2) :-
    with_files(["a.pl"-"p(a).\n", "k"-"p(a).\n"], run(['--require=k', 'a.pl'], _, Status)).
test(no_such_file, Status == 2) :-
    with_files(["a.pl"-"p(a).\n"], run(['--require=k', 'a.pl'], _, Status)).
test(in_sarif, Rules == ["lost-mode", "no-mode"]) :-
    loops(Text),
    app_facts(Start),
    string_concat(Start, "mode('a.pl', app/3, [1], length).\n", Facts),
    with_files(["kept.facts"-Facts, "a.pl"-Text], run(['--sarif', '--require=kept.facts', 'a.pl'], Out, 10)),
    json_of(Out, Json),
    results(Json, Results),
    findall(Rule, member(result(Rule, _, _, _, _), Results), Rules0),
    sort(Rules0, Rules).

:- end_tests(require).


:- begin_tests(hold).

test(pure, Status-Out == 10-"lost(p/1,[[]]).\n") :-
    with_files(["a.pl"-"p([]).\np([_|T]) :- p(T).\n", "m"-"terminates(p/1,[[],[1]]).\n"],
               run('cti-hold', ['a.pl', m], Out, _, Status)).
test(pure_holds, Status == 0) :-
    with_files(["a.pl"-"p([]).\np([_|T]) :- p(T).\n", "m"-"terminates(p/1,[[1]]).\n"],
               run('cti-hold', ['a.pl', m], _, _, Status)).
test(real_file_of_facts, Status-Out == 0-"") :-
    with_files(["a.pl"-"p([]) :- !.\np([_|T]) :- p(T).\n"],
               ( run(['--facts', 'a.pl'], Facts, 0), write_file(m, Facts),
                 run('cti-hold', ['a.pl', m], Out, _, Status) )).
test(real_file_that_lost, Status-Out == 10-"lost(p/1,[[1]]).\n") :-
    with_files(["a.pl"-"p([]) :- !.\np([_|T]) :- p(T).\n"],
               ( run(['--facts', 'a.pl'], Facts, 0), write_file(m, Facts),
                 write_file('a.pl', "p([]) :- !.\np(_) :- p(_).\n"),
                 run('cti-hold', ['a.pl', m], Out, Err, Status) )),
    sub_string(Err, 0, _, _, "a.pl:1:1: error: p/1: ").
test(real_file_of_terminates, Status == 0) :-
    with_files(["a.pl"-"p([]) :- !.\np([_|T]) :- p(T).\n", "m"-"terminates(p/1,[[1]]).\n"],
               run('cti-hold', ['--real', 'a.pl', m], _, _, Status)).
test(words, Status == 2) :-
    with_files([], run('cti-hold', ['a.pl'], _, _, Status)).

:- end_tests(hold).


%   trusted(+Text, +Predicate, -Numbers, -Trusts): what it relies on, and the
%   trusts as Predicate-Use.

trusted(Text, Predicate, Numbers, Trusts) :-
    facts(["a.pl"-Text], ['a.pl'], Facts),
    findall(Number, member(relies('a.pl', Predicate, Number), Facts), Numbers),
    findall(PI-Use, member(trust('a.pl', _, PI, Use), Facts), Trusts).

:- begin_tests(trust).

test(without, Count == 1) :-
    trusted("p(X) :- q(X).\n", p/1, Numbers, []),
    length(Numbers, Count).
test(directive, Numbers-Trusts == []-[q/1-used]) :-
    trusted(":- trust terminates(q/1).\np(X) :- q(X).\n", p/1, Numbers, Trusts).
test(directive_of_an_operator, Numbers-Trusts == []-[q/1-used]) :-
    trusted(":- op(1150, fx, trust).\n:- trust terminates(q/1).\np(X) :- q(X).\n", p/1, Numbers, Trusts).
test(comment, Numbers-Trusts == []-[q/1-used]) :-
    trusted("p(X) :- q(X).\n% cti: trust terminates(q/1).\n", p/1, Numbers, Trusts).
test(other_comment, Trusts == []) :-
    trusted("p(X) :- q(X).\n% we trust terminates(q/1).\n/*\n% cti: trust terminates(q/1).\n*/\n", p/1, [_], Trusts).
test(another_predicate, Trusts == [r/1-not_needed]) :-
    trusted(":- trust terminates(r/1).\np(X) :- q(X).\n", p/1, [_], Trusts).
test(another_arity, Trusts == [q/2-not_needed]) :-
    trusted(":- trust terminates(q/2).\np(X) :- q(X).\n", p/1, [_], Trusts).
test(module, Numbers-Trusts == []-[(m:q/1)-used]) :-
    trusted(":- trust terminates(m:q/1).\np(X) :- m:q(X).\n", p/1, Numbers, Trusts).
test(another_module, Trusts == [(n:q/1)-not_needed]) :-
    trusted(":- trust terminates(n:q/1).\np(X) :- m:q(X).\n", p/1, [_], Trusts).
test(name_without_a_module_is_of_the_file, Trusts == [q/1-not_needed]) :-
    trusted(":- trust terminates(q/1).\np(X) :- m:q(X).\n", p/1, [_], Trusts).
test(name_without_a_module_is_not_of_another_file, Relying == [p/1]) :-
    facts(["a.pl"-":- module(a, []).\n:- trust terminates(q/1).\np(X) :- q(X).\n",
           "b.pl"-":- module(b, []).\np(X) :- q(X).\n"],
          ['a.pl', 'b.pl'], Facts),
    findall(PI, member(relies('b.pl', PI, _), Facts), Relying),
    \+ memberchk(relies('a.pl', _, _), Facts).
test(built_in, Numbers-Trusts == []-[thread_get_message/1-used]) :-
    trusted(":- trust terminates(thread_get_message/1).\np(X) :- thread_get_message(X).\n", p/1, Numbers, Trusts).
test(directive_that_calls, Numbers-Trusts == []-[q/0-used]) :-
    trusted(":- trust terminates(q/0).\n:- q.\np(a).\n", p/1, Numbers, Trusts).
test(goal_of_maplist, Numbers-Trusts == []-[q/1-used]) :-
    trusted(":- trust terminates(q/1).\np(L) :- maplist(q, L).\n", p/1, Numbers, Trusts).
test(several, Numbers-Trusts == []-[q/1-used, r/3-used]) :-
    trusted(":- trust terminates([q/1, r//1]).\np(X) :- q(X), phrase(r(X), []).\n", p/1, Numbers, Trusts).
test(library, Numbers == []) :-
    trusted(":- use_module(library(clpfd)).\n:- trust terminates([clpfd:labeling/2, clpfd:(in)/2]).\n\
p(X) :- X in 1..3, labeling([], [X]).\n",
            p/1, Numbers, _).
test(own_predicate_is_not_looked_at_where_it_is_called, Sets == [[]]) :-
    facts(["a.pl"-":- trust terminates(q/1).\np(X) :- q(X).\nq(X) :- r(X).\nr(X) :- r(X).\n"], ['a.pl'], Facts),
    findall(Set, member(mode('a.pl', p/1, Set, _), Facts), Sets),
    memberchk(no_mode('a.pl', q/1, _), Facts).
test(file_of_its_own, Uses == [1-q/1-used, 2-r/1-used, 3-s/1-not_needed]) :-
    facts(["a.pl"-"p(X) :- q(X), r(X).\n", "t"-"terminates(q/1).\n:- trust terminates(r/1).\ntrust terminates(s/1).\n"],
          ['--trust=t', 'a.pl'], Facts),
    \+ memberchk(relies(_, _, _), Facts),
    findall(Line-PI-Use, member(trust(t, Line, PI, Use), Facts), Uses).
test(wrong_trust, Status == 5) :-
    with_files(["a.pl"-"p(a).\n:- trust q.\n"], run('cti-file', ['a.pl'], _, Err, Status)),
    once(sub_string(Err, _, _, _, "a.pl:2:1: error: a trust is written as")).
test(wrong_file, Status == 2) :-
    with_files(["a.pl"-"p(a).\n", "t"-"q(a).\n"], run(['--trust=t', 'a.pl'], _, Status)).
test(table_says_so) :-
    with_files(["a.pl"-":- trust terminates(q/1).\n:- trust terminates(r/1).\np(X) :- q(X).\n"], run(['a.pl'], Out, 0)),
    has_line(Out, "trusted:"),
    has_line(Out, "      a.pl:1: q/1: it ends"),
    has_line(Out, "      a.pl:2: r/1: not needed, as nothing is assumed of it").

:- end_tests(trust).
