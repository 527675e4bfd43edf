:- module(cti_report,
          [ write_report/2,             % +Format, +Report
            report_messages/2,          % +Report, -Messages
            print_message_line/2,       % +Stream, +Message
            path_shown/2,               % +Path, -Shown
            report_version/1            % -Version
          ]).

/** <module> What is said of real files, for programs

A report is a dict

    report{ answers, failures, complaints }

with answers as of cti_file_answer/3; failure{file, status, text} for each file
that has none; and the messages of what --require asks for and is not there.
A message is a dict

    message{ rule, level, file, line, column, predicate, text, related }

with `error`, `warning`, `note` or `info` for its level, `none` for the predicate
where it is of a whole file, and a list of place(Path, Line, Column, Text).

docs/continuous-integration.md says what each form has.
*/

:- use_module(library(apply)).
:- use_module(library(lists)).
:- use_module(library(yall)).
:- use_module(answer_text).
:- autoload(library(http/json), [json_write_dict/3]).
:- autoload(library(uri), [uri_encoded/3, uri_file_name/2]).

%!  report_version(-Version) is det.

report_version('0.4').

%!  write_report(+Format, +Report:dict) is det.
%
%   Writes Report to the current output. Format is `facts`, `json`, `sarif` or
%   `lines`.

write_report(facts, Report) :-
    write_facts(Report).
write_report(json, Report) :-
    json_document(Report, Document),
    write_json(Document).
write_report(sarif, Report) :-
    sarif_document(Report, Document),
    write_json(Document).
write_report(lines, Report) :-
    report_messages(Report, Messages),
    current_output(Out),
    forall(member(Message, Messages), print_message_line(Out, Message)).

write_json(Document) :-
    current_output(Out),
    json_write_dict(Out, Document, [width(100)]),
    nl(Out).

%!  path_shown(+Path, -Shown) is det.
%
%   Shown is Path as seen from the working directory, if it is below that.

path_shown(Path, Shown) :-
    working_directory(Directory, Directory),
    (   atom_concat(Directory, Below, Path)
    ->  Shown = Below
    ;   Shown = Path
    ).

%   numbered_assumption(+Report, -Answer, -Number, -Assumption): assumptions
%   are numbered through all answers of a report.

numbered_assumption(Report, Answer, Number, Assumption) :-
    answer_offset(Report, Answer, Offset),
    member(Assumption, Answer.assumptions),
    Number is Offset + Assumption.number.

answer_offset(Report, Answer, Offset) :-
    append(Before, [Answer|_], Report.answers),
    foldl(counted_assumptions, Before, 0, Offset).

counted_assumptions(Answer, Count0, Count) :-
    length(Answer.assumptions, More),
    Count is Count0 + More.

relied_numbers(Offset, Predicate, Numbers) :-
    findall(Number, ( member(Local, Predicate.assumptions), Number is Offset + Local ), Numbers).


%   Facts, one in a line.

write_facts(Report) :-
    report_version(Version),
    format("% Facts of cti-file. docs/continuous-integration.md says what they mean.~n"),
    forall(report_fact(Report, Version, Fact), write_fact(Fact)).

write_fact(Fact) :-
    write_term(Fact, [quoted(true), numbervars(false), portray(false), spacing(next_argument)]),
    write('.\n').

report_fact(_, Version, cti_file(1, Version)).
report_fact(Report, _, file(Shown)) :-
    member(Answer, Report.answers),
    member(File, Answer.files),
    path_shown(File, Shown).
report_fact(Report, _, Fact) :-
    answer_offset(Report, Answer, Offset),
    member(Predicate, Answer.predicates),
    predicate_fact(Predicate, Offset, Fact).
report_fact(Report, _, assumption(Number, Shown, Line, PI, Doubt, Text)) :-
    numbered_assumption(Report, _, Number, Assumption),
    _{file:File, line:Line, predicate:PI, doubt:Doubt, text:Text} :< Assumption,
    path_shown(File, Shown).
report_fact(Report, _, trust(Shown, Line, PI, Use)) :-
    member(Answer, Report.answers),
    member(Trust, Answer.trusts),
    _{file:File, line:Line, predicate:PI, used:Used} :< Trust,
    path_shown(File, Shown),
    used_word(Used, Use).
report_fact(Report, _, certificate(Shown, Kind, Count, Check)) :-
    member(Answer, Report.answers),
    path_shown(Answer.file, Shown),
    member(Certificate, Answer.certificates),
    _{kind:Kind, facts:Count, checked:Checked} :< Certificate,
    checked_word(Checked, Check).
report_fact(Report, _, unanswered(Shown, Analysis)) :-
    member(Answer, Report.answers),
    path_shown(Answer.file, Shown),
    member(Analysis, Answer.unanswered).
report_fact(Report, _, unread(Shown, Line, Column, Text)) :-
    member(Answer, Report.answers),
    member(place(File, Line, Column, Text0), Answer.unread),
    path_shown(File, Shown),
    text_string(Text0, Text).
report_fact(Report, _, failed(Shown, Status, Text)) :-
    member(Failure, Report.failures),
    _{file:File, status:Status, text:Text} :< Failure,
    path_shown(File, Shown).

predicate_fact(Predicate, Offset, Fact) :-
    _{name:PI, file:File0, line:Line, column:Column, exported:Exported, modes:Modes, reason_text:Reason,
      reason_places:Places, not_shown:NotShown} :< Predicate,
    path_shown(File0, File),
    (   exported_word(Exported, Word),
        Fact = predicate(File, PI, Line, Column, Word)
    ;   member(mode{arguments:Arguments, by:By}, Modes),
        Fact = mode(File, PI, Arguments, By)
    ;   Modes \== [],
        Predicate.checked == false,
        Fact = not_checked(File, PI)
    ;   Modes == [],
        Fact = no_mode(File, PI, Reason)
    ;   member(place(Path, L, C, Text), Places),
        path_shown(Path, Shown),
        Fact = culprit(File, PI, Shown, L, C, Text)
    ;   member(place(Path, L, C, Text), NotShown),
        path_shown(Path, Shown),
        Fact = not_shown(File, PI, Shown, L, C, Text)
    ;   relied_numbers(Offset, Predicate, Numbers),
        member(Number, Numbers),
        Fact = relies(File, PI, Number)
    ).

exported_word(true, exported).
exported_word(false, local).

used_word(true, used).
used_word(false, not_needed).

checked_word(true, checked).
checked_word(false, not_checked).


%   JSON. Text is always a string: an atom may be named as a constant of JSON.

json_document(Report,
              _{tool:"cti-file", version:Version, files:Files, predicates:Predicates, assumptions:Assumptions,
                trusts:Trusts, certificates:Certificates, unanswered:Unanswered, unread:Unread, failures:Failures,
                complaints:Complaints}) :-
    report_version(Version0),
    text_string(Version0, Version),
    findall(File, ( member(Answer, Report.answers), member(Path, Answer.files), shown_string(Path, File) ), Files),
    findall(Json, json_predicate(Report, Json), Predicates),
    findall(Json, json_assumption(Report, Json), Assumptions),
    findall(Json, json_trust(Report, Json), Trusts),
    findall(Json, json_certificate(Report, Json), Certificates),
    findall(Text,
            ( member(Answer, Report.answers), member(Analysis, Answer.unanswered), text_string(Analysis, Text) ),
            Unanswered),
    findall(Json, ( member(Answer, Report.answers), member(Place, Answer.unread), json_place(Place, Json) ), Unread),
    findall(Json, json_failure(Report, Json), Failures),
    findall(Json, ( member(Message, Report.complaints), json_message(Message, Json) ), Complaints).

shown_string(Path, String) :-
    path_shown(Path, Shown),
    text_string(Shown, String).

term_text(Term, Text) :-
    format(string(Text), "~q", [Term]).

json_predicate(Report,
               _{name:Name, file:File, line:Line, column:Column, exported:Exported, recursion:Recursion,
                 checked:Checked, modes:Modes, found_by:FoundBy, reason:Reason, not_shown:NotShown,
                 assumptions:Numbers}) :-
    answer_offset(Report, Answer, Offset),
    member(Predicate, Answer.predicates),
    _{name:PI, file:Path, line:Line, column:Column, exported:Exported, recursion:Recursion0, modes:Modes0,
      checked:Checked, found_by:FoundBy0, reason_text:Text, reason_places:Places, not_shown:NotShown0} :< Predicate,
    term_text(PI, Name),
    shown_string(Path, File),
    text_string(Recursion0, Recursion),
    maplist(text_string, FoundBy0, FoundBy),
    maplist(json_mode, Modes0, Modes),
    (   Modes0 == []
    ->  maplist(json_place, Places, JsonPlaces),
        Reason = _{text:Text, places:JsonPlaces}
    ;   Reason = null
    ),
    maplist(json_place, NotShown0, NotShown),
    relied_numbers(Offset, Predicate, Numbers).

json_mode(mode{arguments:Arguments, by:By0}, _{arguments:Arguments, by:By}) :-
    text_string(By0, By).

json_place(place(Path, Line, Column, Text0), _{file:File, line:Line, column:Column, text:Text}) :-
    shown_string(Path, File),
    text_string(Text0, Text).

json_assumption(Report, _{number:Number, file:File, line:Line, predicate:Name, doubt:DoubtText, text:Text}) :-
    numbered_assumption(Report, _, Number, Assumption),
    _{file:Path, line:Line, predicate:PI, doubt:Doubt, text:Text} :< Assumption,
    shown_string(Path, File),
    json_name(PI, file, Name),
    term_text(Doubt, DoubtText).

%   json_name(+PI, +None, -Name): null for what is of a whole file.

json_name(PI, None, Name) :-
    (   PI == None
    ->  Name = null
    ;   term_text(PI, Name)
    ).

json_trust(Report, _{file:File, line:Line, predicate:Name, used:Used}) :-
    member(Answer, Report.answers),
    member(Trust, Answer.trusts),
    _{file:Path, line:Line, predicate:PI, used:Used} :< Trust,
    shown_string(Path, File),
    term_text(PI, Name).

json_certificate(Report, _{file:File, kind:Kind, facts:Count, checked:Checked}) :-
    member(Answer, Report.answers),
    shown_string(Answer.file, File),
    member(Certificate, Answer.certificates),
    _{kind:Kind0, facts:Count, checked:Checked} :< Certificate,
    text_string(Kind0, Kind).

json_failure(Report, _{file:File, status:Status, text:Text}) :-
    member(Failure, Report.failures),
    _{file:Path, status:Status, text:Text0} :< Failure,
    shown_string(Path, File),
    text_string(Text0, Text).

json_message(Message, _{rule:Rule, level:Level, file:File, line:Line, column:Column, predicate:Name, text:Text}) :-
    _{rule:Rule0, level:Level0, file:Path, line:Line, column:Column, predicate:PI, text:Text} :< Message,
    text_string(Rule0, Rule),
    text_string(Level0, Level),
    shown_string(Path, File),
    json_name(PI, none, Name).


%   Messages.

%!  report_messages(+Report:dict, -Messages) is det.
%
%   In the order of files, and of the lines of each.

report_messages(Report, Messages) :-
    findall(key(File, Line, Column)-Message,
            ( report_message(Report, Message),
              _{file:File, line:Line, column:Column} :< Message ),
            Pairs0),
    keysort(Pairs0, Pairs),
    findall(Message, member(_-Message, Pairs), Messages).

report_message(Report, Message) :-
    member(Message, Report.complaints).
report_message(Report, Message) :-
    member(Failure, Report.failures),
    _{file:File, text:Text0} :< Failure,
    text_string(Text0, Text),
    Message = message{rule:failed, level:error, file:File, line:1, column:1, predicate:none, text:Text, related:[]}.
report_message(Report, Message) :-
    member(Answer, Report.answers),
    member(place(File, Line, Column, Text0), Answer.unread),
    text_string(Text0, Text),
    Message = message{rule:unread, level:error, file:File, line:Line, column:Column, predicate:none, text:Text,
                      related:[]}.
report_message(Report, Message) :-
    answer_offset(Report, Answer, Offset),
    member(Predicate, Answer.predicates),
    predicate_message(Predicate, Offset, Message).
report_message(Report, Message) :-
    numbered_assumption(Report, Answer, Number, Assumption),
    assumption_message(Assumption, Number, Answer, Message).
report_message(Report, Message) :-
    member(Answer, Report.answers),
    member(Trust, Answer.trusts),
    _{file:File, line:Line, predicate:PI, used:false} :< Trust,
    format(string(Text), "nothing is assumed of ~q: this trust is not needed", [PI]),
    Message = message{rule:'unneeded-trust', level:note, file:File, line:Line, column:1, predicate:none, text:Text,
                      related:[]}.

predicate_message(Predicate, Offset, Message) :-
    _{name:PI, file:File, line:Line, column:Column, modes:Modes, reason_text:Reason, reason_places:Places,
      not_shown:NotShown} :< Predicate,
    (   Modes == []
    ->  format(string(Text), "no mode: ~s", [Reason]),
        Message = message{rule:'no-mode', level:warning, file:File, line:Line, column:Column, predicate:PI, text:Text,
                          related:Places}
    ;   modes_text(Modes, ModesText),
        relied_numbers(Offset, Predicate, Numbers),
        numbers_text(Numbers, If),
        format(string(Text), "~s~w", [ModesText, If]),
        Message = message{rule:modes, level:info, file:File, line:Line, column:Column, predicate:PI, text:Text,
                          related:[]}
    ;   member(place(Path, L, C, Text), NotShown),
        Message = message{rule:'pattern-not-shown', level:note, file:Path, line:L, column:C, predicate:PI,
                          text:Text, related:[]}
    ).

%   What is assumed of a library's predicate is said at the head of the file
%   that was asked for.

assumption_message(Assumption, Number, Answer,
                   message{rule:assumption, level:note, file:File, line:Line, column:1, predicate:PI, text:Text,
                           related:Related}) :-
    _{file:File0, line:Line0, predicate:PI0, text:Text0} :< Assumption,
    (   PI0 == file
    ->  PI = none
    ;   PI = PI0
    ),
    (   memberchk(File0, Answer.files)
    ->  File = File0, Line = Line0, Related = []
    ;   File = Answer.file, Line = 1, Related = [place(File0, Line0, 1, "it is here")]
    ),
    format(string(Text), "assumption ~d: ~s", [Number, Text0]).

%!  print_message_line(+Stream, +Message:dict) is det.
%
%   As compilers do, so that editors find the place: File:Line:Column: level:
%   text. What is related has lines of its own.

print_message_line(Stream, Message) :-
    _{level:Level, file:File, line:Line, column:Column, predicate:PI, text:Text, related:Related} :< Message,
    print_place(Stream, File, Line, Column, Level, PI, Text),
    forall(member(place(Path, L, C, Also), Related), print_place(Stream, Path, L, C, note, PI, Also)).

print_place(Stream, Path, Line, Column, Level, PI, Text) :-
    path_shown(Path, Shown),
    (   PI == none
    ->  format(Stream, "~w:~w:~w: ~w: ~w~n", [Shown, Line, Column, Level, Text])
    ;   format(Stream, "~w:~w:~w: ~w: ~q: ~w~n", [Shown, Line, Column, Level, PI, Text])
    ).


%   SARIF 2.1.0.

rule('no-mode', warning, "No mode",
     "No set of arguments was found that makes sure that the predicate's queries end").
rule('pattern-not-shown', note, "A pattern without a mode",
     "A comment or a call of the file has a pattern that no mode of the predicate meets").
rule(assumption, note, "Assumption", "Modes rest on what is not known of the file").
rule('unneeded-trust', note, "A trust that is not needed", "Nothing is assumed of the predicate that is trusted").
rule('lost-mode', error, "A mode was lost", "A predicate had a mode in the kept facts, and has it no more").
rule('mode-required', error, "A mode is required", "A predicate that is required to have a mode has none").
rule('more-assumed', warning, "More is assumed", "A mode rests on an assumption on which it did not rest before").
rule('not-kept', note, "Not kept", "The kept facts say nothing of the file").
rule(unread, error, "Not read", "The text could not be read").
rule(failed, error, "No answer", "There is no answer for the file").

sarif_document(Report,
               _{version:"2.1.0", '$schema':"https://json.schemastore.org/sarif-2.1.0.json", runs:[Run]}) :-
    report_version(Version0),
    text_string(Version0, Version),
    findall(Rule, sarif_rule(Rule), Rules),
    report_messages(Report, Messages),
    findall(Result, ( member(Message, Messages), sarif_result(Message, Result) ), Results),
    (   Report.failures == []
    ->  Successful = true
    ;   Successful = false
    ),
    Run = _{ tool:_{driver:_{name:"cti-file", version:Version, rules:Rules}},
             columnKind:"unicodeCodePoints",
             invocations:[_{executionSuccessful:Successful}],
             results:Results }.

sarif_rule(_{id:Id, name:Name, shortDescription:_{text:Short}, fullDescription:_{text:Long},
             defaultConfiguration:_{level:Level}}) :-
    rule(Id0, Level0, Short, Long),
    text_string(Id0, Id),
    rule_name(Id0, Name),
    text_string(Level0, Level).

%   `lost-mode` is named LostMode.

rule_name(Id, Name) :-
    atomic_list_concat(Words, -, Id),
    maplist([Word, Capital]>>( sub_atom(Word, 0, 1, _, First), upcase_atom(First, Upper),
                               sub_atom(Word, 1, _, 0, Rest), atom_concat(Upper, Rest, Capital) ),
            Words, Capitals),
    atomic_list_concat(Capitals, Joined),
    text_string(Joined, Name).

sarif_result(Message, Result) :-
    _{rule:Rule, level:Level0, file:File, line:Line, column:Column, predicate:PI, text:Text0,
      related:Related} :< Message,
    once(( findall(Id, rule(Id, _, _, _), Ids), nth0(Index, Ids, Rule) )),
    text_string(Rule, RuleId),
    text_string(Level0, Level),
    sarif_location(File, Line, Column, Location0),
    (   PI == none
    ->  Text = Text0, Location = Location0
    ;   term_text(PI, Name),
        format(string(Text), "~w: ~w", [Name, Text0]),
        Location = Location0.put(logicalLocations, [_{fullyQualifiedName:Name, kind:"function"}])
    ),
    Result0 = _{ruleId:RuleId, ruleIndex:Index, level:Level, message:_{text:Text}, locations:[Location]},
    (   Related == []
    ->  Result = Result0
    ;   findall(Also, sarif_related(Related, Also), Others),
        Result = Result0.put(relatedLocations, Others)
    ).

sarif_related(Related, Location) :-
    nth1(Id, Related, place(Path, Line, Column, Text0)),
    text_string(Text0, Text),
    sarif_location(Path, Line, Column, Location0),
    Location = Location0.put(_{id:Id, message:_{text:Text}}).

%   A region begins in a line from 1 on; a predicate without clauses has none.

sarif_location(Path, Line0, Column, _{physicalLocation:_{artifactLocation:_{uri:Uri},
                                                         region:_{startLine:Line, startColumn:Column}}}) :-
    Line is max(1, Line0),
    path_shown(Path, Shown),
    (   is_absolute_file_name(Shown)
    ->  uri_file_name(Uri0, Shown)
    ;   uri_encoded(path, Shown, Uri0)
    ),
    text_string(Uri0, Uri).

text_string(Text, String) :-
    format(string(String), "~w", [Text]).
