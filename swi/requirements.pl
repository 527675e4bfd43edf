:- module(requirements,
          [ complaints/3,               % +Requirement, +Answers, -Complaints
            kept_modes/2,               % +Facts, -Kept
            lost_modes/3,               % +Kept, +Answers, -Lost
            lost_message/2              % +Lost, -Message
          ]).

/** <module> What is required of the modes of real files

A requirement is `exported` or `all`, and then each exported predicate, or each
one, has to have a mode; or kept(File), with facts that cti-file once wrote: what
had a mode there has to have it still.
*/

:- use_module(library(apply)).
:- use_module(library(lists)).
:- use_module(library(ordsets)).
:- use_module(library(readutil)).
:- use_module(analyses, [asks_less/2]).
:- use_module(answer_text, [modes_text/2, assumption_text/2]).

%!  complaints(+Requirement, +Answers, -Complaints) is det.
%
%   Complaints are messages as of cti_report, at the level `error` where the
%   requirement is not met, and at `warning` for what is worth a look.

complaints(exported, Answers, Complaints) :-
    findall(Complaint, without_mode(Answers, true, Complaint), Complaints).
complaints(all, Answers, Complaints) :-
    findall(Complaint, without_mode(Answers, _, Complaint), Complaints).
complaints(kept(File), Answers, Complaints) :-
    read_file_to_terms(File, Facts, [encoding(utf8)]),
    (   memberchk(cti_file(1, _), Facts)
    ->  true
    ;   throw(error(no_facts(File), _))
    ),
    kept_modes(Facts, Kept),
    lost_modes(Kept, Answers, Lost),
    findall(Complaint, ( member(One, Lost), lost_message(One, Complaint) ), Complaints0),
    findall(Complaint, more_assumed(Facts, Answers, Complaint), Complaints1),
    findall(Complaint, not_kept(Facts, File, Answers, Complaint), Complaints2),
    append([Complaints0, Complaints1, Complaints2], Complaints).

without_mode(Answers, Exported, Complaint) :-
    member(Answer, Answers),
    member(Predicate, Answer.predicates),
    _{name:PI, exported:Exported, modes:[], file:File, line:Line, column:Column, reason_text:Reason,
      reason_places:Places} :< Predicate,
    format(string(Text), "it has to have a mode, and has none: ~s", [Reason]),
    Complaint = message{rule:'mode-required', level:error, file:File, line:Line, column:Column, predicate:PI, text:Text,
                        related:Places}.

%!  kept_modes(+Facts, -Kept) is det.
%
%   Kept are terms kept(Path, Predicate, Arguments, By). Facts name files as seen
%   from the working directory.

kept_modes(Facts, Kept) :-
    findall(kept(Path, PI, Arguments, By),
            ( member(mode(File, PI, Arguments, By), Facts),
              absolute_file_name(File, Path) ),
            Kept).

%!  lost_modes(+Kept, +Answers, -Lost) is det.
%
%   Lost are terms lost(Path, Line, Column, Predicate, Modes, Why): Modes are those
%   of Kept that no mode of Answers is as good as. Why is the reason as text. Line
%   is 1 where the predicate is gone. What is kept of files that were not asked
%   for is left out.

lost_modes(Kept, Answers, Lost) :-
    findall(Path-PI, member(kept(Path, PI, _, _), Kept), All0),
    sort(All0, All),
    findall(One, ( member(Path-PI, All), lost_of(Path, PI, Kept, Answers, One) ), Lost).

lost_of(Path, PI, Kept, Answers, lost(Path, Line, Column, PI, Modes, Why)) :-
    asked_for(Path, Answers),
    findall(mode{arguments:Arguments, by:By}, member(kept(Path, PI, Arguments, By), Kept), Before),
    (   predicate_of(Path, PI, Answers, Predicate)
    ->  _{line:Line, column:Column, modes:Now, reason_text:Reason} :< Predicate,
        exclude(is_met(Now), Before, Modes),
        (   Now == []
        ->  format(string(Why0), "no mode: ~s", [Reason])
        ;   modes_text(Now, NowText),
            format(string(Why0), "now ~s", [NowText])
        ),
        unanswered_text(Answers, Text),
        string_concat(Why0, Text, Why)
    ;   Line = 1, Column = 1, Modes = Before, Why = "it is not there any more"
    ),
    Modes \== [].

unanswered_text(Answers, Text) :-
    (   member(Answer, Answers),
        Answer.unanswered = [_|_]
    ->  Text = "; cti had not the time to look for all modes (--timeout SECONDS)"
    ;   Text = ""
    ).

asked_for(Path, Answers) :-
    member(Answer, Answers),
    (   memberchk(Path, Answer.files)
    ->  true
    ;   member(Predicate, Answer.predicates),
        Path == Predicate.file
    ),
    !.

predicate_of(Path, PI, Answers, Predicate) :-
    member(Answer, Answers),
    member(Predicate, Answer.predicates),
    _{name:PI, file:Path} :< Predicate,
    !.

%   is_met(+Now, +Mode): a mode of Now asks for no more than Mode.

is_met(Now, mode{arguments:Arguments, by:By}) :-
    member(mode{arguments:Less, by:LessBy}, Now),
    asks_less(LessBy, By),
    subset(Less, Arguments),
    !.

%!  lost_message(+Lost, -Message:dict) is det.

lost_message(lost(Path, Line, Column, PI, Modes, Why),
             message{rule:'lost-mode', level:error, file:Path, line:Line, column:Column, predicate:PI, text:Text,
                     related:[]}) :-
    modes_text(Modes, ModesText),
    format(string(Text), "it had ~s, which is lost: ~s", [ModesText, Why]).

%   Assumptions are the same where their predicate and their kind are.

more_assumed(Facts, Answers,
             message{rule:'more-assumed', level:warning, file:Path, line:Line, column:Column, predicate:PI, text:Text,
                     related:[]}) :-
    findall(Path-PI, ( member(mode(File, PI, _, _), Facts), absolute_file_name(File, Path) ), All0),
    sort(All0, All),
    member(Path-PI, All),
    member(Answer, Answers),
    member(Predicate, Answer.predicates),
    _{name:PI, file:Path, line:Line, column:Column, modes:[_|_], assumptions:Numbers} :< Predicate,
    findall(Of-Doubt,
            ( member(relies(File, PI, Number), Facts),
              absolute_file_name(File, Path),
              member(assumption(Number, _, _, Of, Doubt, _), Facts) ),
            Before0),
    sort(Before0, Before),
    findall(Of-Doubt,
            ( member(Assumption, Answer.assumptions),
              _{number:Number, predicate:Of, doubt:Doubt} :< Assumption,
              memberchk(Number, Numbers) ),
            Now0),
    sort(Now0, Now),
    ord_subtract(Now, Before, More),
    More \== [],
    findall(One,
            ( member(Of-Doubt, More), assumption_text(Doubt, Assumed), format(string(One), "~q: ~s", [Of, Assumed]) ),
            Texts),
    atomic_list_concat(Texts, '; ', Joined),
    format(string(Text), "its modes rest on more than they did: ~w", [Joined]).

not_kept(Facts, FactsFile, Answers,
         message{rule:'not-kept', level:note, file:Path, line:1, column:1, predicate:none, text:Text, related:[]}) :-
    findall(Path, ( member(file(File), Facts), absolute_file_name(File, Path) ), Kept),
    member(Answer, Answers),
    member(Path, Answer.files),
    \+ memberchk(Path, Kept),
    format(string(Text), "~w says nothing of this file", [FactsFile]).
