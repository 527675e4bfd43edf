:- module(answer_text,
          [ print_answer/1,             % +Answer
            print_reply/2,              % +Reply, +Answer
            modes_text/2,               % +Modes, -Text
            numbers_text/2,             % +Numbers, -Text
            place_text/5,               % +File, +Line, +Column, +MainFile, -Text
            file_shown/2,               % +File, -Shown
            reason_text/2,              % +Reason, -Text
            assumption_text/2           % +Doubt, -Text
          ]).

/** <module> What is said of a real file, for people */

:- use_module(library(lists)).

%!  print_answer(+Answer:dict) is det.
%
%   Prints the answer for people, as the script cti-file does.

print_answer(Answer) :-
    forall(member(Predicate, Answer.predicates), print_predicate(Predicate, Answer.files)),
    (   Answer.assumptions == []
    ->  true
    ;   format("~nassumed:~n"),
        forall(member(Assumption, Answer.assumptions), print_assumption(Assumption))
    ),
    print_trusts(Answer.trusts),
    format("~nAlways assumed: no cyclic terms, and no attributed variables in the query. "),
    format("Not proved: that the pure program~ncovers the file. See docs/real-files.md.~n"),
    print_unchecked(Answer),
    print_unanswered(Answer.unanswered).

print_unanswered([]) :- !.
print_unanswered(Analyses) :-
    findall(Text, ( member(Analysis, Analyses), analysis_text(Analysis, Text) ), Texts),
    atomic_list_concat(Texts, ' and ', List),
    format("There may be more modes: cti gave no answer in time by ~w (--timeout SECONDS).~n", [List]).

analysis_text(term_size, 'the size of terms') :- !.
analysis_text(list_size, 'the size of lists') :- !.
analysis_text(Analysis, Text) :-
    atomic_list_concat(Words, '_', Analysis),
    atomic_list_concat(Words, ' ', Text).

%   No command reads a certificate of lists of mappings.

print_unchecked(Answer) :-
    (   member(certificate{kind:term_size, facts:_, checked:false}, Answer.certificates)
    ->  format("No certificate was checked.~n")
    ;   findall(Name,
                ( member(Predicate, Answer.predicates), _{name:Name, checked:false} :< Predicate ),
                Names),
        Names \== []
    ->  findall(Text, ( member(Name, Names), format(atom(Text), "~q", [Name]) ), Texts),
        atomic_list_concat(Texts, ', ', List),
        format("Only lists of mappings show modes of ~w: their certificate is not checked, ", [List]),
        format("since no command reads it.~n")
    ;   true
    ).

print_trusts([]) :- !.
print_trusts(Trusts) :-
    format("~ntrusted:~n"),
    forall(member(Trust, Trusts), print_trust(Trust)).

print_trust(Trust) :-
    _{file:File, line:Line, predicate:PI, used:Used} :< Trust,
    file_shown(File, Shown),
    (   Used == true
    ->  Text = "it ends"
    ;   Text = "not needed, as nothing is assumed of it"
    ),
    format("      ~w:~w: ~q: ~w~n", [Shown, Line, PI, Text]).

%!  print_reply(+Reply:dict, +Answer:dict) is det.
%
%   Prints the reply to a question, with the assumptions on which it rests.

print_reply(Reply, Answer) :-
    format("~w: ~w: ~s~n", [Reply.answer, Reply.query, Reply.text]),
    (   Reply.answer == yes
    ->  findall(Assumption,
                ( member(Number, Reply.assumptions),
                  member(Assumption, Answer.assumptions),
                  Number == Assumption.number ),
                Assumptions)
    ;   Assumptions = []
    ),
    (   Assumptions == []
    ->  true
    ;   format("~nassumed:~n"),
        forall(member(Assumption, Assumptions), print_assumption(Assumption))
    ).

%   Where several files were asked for, a predicate is said with its file.

print_predicate(Predicate, Files) :-
    _{file:File, line:Line, name:Name, modes:Modes, reason_text:Reason} :< Predicate,
    _{assumptions:Numbers, not_shown:NotShown} :< Predicate,
    (   Files = [_]
    ->  format("~w~t~14|~q~t~48|", [Line, Name])
    ;   file_shown(File, Shown),
        format("~w:~w~t~24|~q~t~58|", [Shown, Line, Name])
    ),
    (   Modes == []
    ->  format(" no mode: ~s", [Reason])
    ;   modes_text(Modes, Text),
        numbers_text(Numbers, If),
        format(" ~s~w", [Text, If])
    ),
    nl,
    forall(member(place(_, _, _, Wanted), NotShown), format("~t~49|~s~n", [Wanted])).

%!  modes_text(+Modes, -Text:string) is det.
%
%   [[1]] asks for ground arguments.

modes_text(Modes, Text) :-
    findall(Set, member(mode{arguments:Set, by:ground}, Modes), Ground),
    findall(Set, member(mode{arguments:Set, by:length}, Modes), Lengths),
    (   Lengths == []
    ->  format(string(Text), "~w", [Ground])
    ;   Ground == []
    ->  format(string(Text), "~w by length", [Lengths])
    ;   format(string(Text), "~w, ~w by length", [Ground, Lengths])
    ).

%!  numbers_text(+Numbers, -Text) is det.
%
%   Text is ` if 1, 3`, or nothing.

numbers_text([], '') :- !.
numbers_text(Numbers, Text) :-
    length(Numbers, Count),
    (   Count > 6
    ->  length(First, 5),
        append(First, _, Numbers),
        atomic_list_concat(First, ', ', List),
        Others is Count - 5,
        format(atom(Text), " if ~w and ~d more", [List, Others])
    ;   atomic_list_concat(Numbers, ', ', List),
        format(atom(Text), " if ~w", [List])
    ).

print_assumption(Assumption) :-
    _{number:Number, file:File, line:Line, predicate:Predicate, text:Text} :< Assumption,
    file_shown(File, Shown),
    (   Predicate == file
    ->  format("~t~d~4|  ~w:~w: ~s~n", [Number, Shown, Line, Text])
    ;   format("~t~d~4|  ~w:~w: ~q: ~s~n", [Number, Shown, Line, Predicate, Text])
    ).

%!  place_text(+File, +Line, +Column, +MainFile, -Text) is det.
%
%   Line:Column, after what file_shown/2 says of a file that is not the main
%   one.

place_text(File, Line, Column, MainFile, Text) :-
    (   File == MainFile
    ->  format(atom(Text), "~w:~w", [Line, Column])
    ;   file_shown(File, Shown),
        format(atom(Text), "~w:~w:~w", [Shown, Line, Column])
    ).

%!  file_shown(+File, -Shown) is det.
%
%   The base name; a file of SWI-Prolog's library is named as it is loaded.

file_shown(File, Shown) :-
    (   current_prolog_flag(home, Home),
        atomic_list_concat([Home, '/library/'], Library),
        atom_concat(Library, Rest, File),
        file_name_extension(Stem, pl, Rest)
    ->  format(atom(Shown), "library(~w)", [Stem])
    ;   file_base_name(File, Shown)
    ).

%!  reason_text(+Reason, -Text:string) is semidet.
%
%   The text of a reason that names no place.

reason_text(large(Count), Text) :-
    format(string(Text), "the predicates of its recursion have ~d arguments, more than 12: the search was cut short",
           [Count]).
reason_text(blown, "the search was given up: its numbers or lists grew too large").
reason_text(unknown, "no ground arguments make sure that its calls end").

%!  assumption_text(+Doubt, -Text:string) is det.

assumption_text(goal, "the goal that it calls is not known: it ends").
assumption_text(external(PI), Text) :-
    format(string(Text), "~q is not read: it ends", [PI]).
assumption_text(risk(place, PI), Text) :-
    format(string(Text), "~q changes a term in place: no term that is known by its size grows", [PI]).
assumption_text(risk(waits, PI), Text) :-
    format(string(Text), "~q leaves a goal waiting: it ends when it runs", [PI]).
assumption_text(risk(imports, PI), Text) :-
    format(string(Text), "~q imports from another module: nothing that the file calls", [PI]).
assumption_text(risk(runs, PI), Text) :-
    format(string(Text), "~q may run goals that are not known, or wait: it ends", [PI]).
assumption_text(risk(grows, PI), Text) :-
    format(string(Text), "~q goes through a table: what it goes through does not grow meanwhile", [PI]).
assumption_text(directive(Doubt), Text) :-
    assumption_text(Doubt, Text0),
    format(string(Text), "in this directive, ~s; what it leaves behind ends too", [Text0]).
assumption_text(lasting(What), Text) :-
    format(string(Text), "~q may have goals run, or other clauses called, later: these end", [What]).
assumption_text(hook(PI), Text) :-
    format(string(Text), "~q is called by the system: it ends whenever it is called", [PI]).
assumption_text(shadows(PI), Text) :-
    format(string(Text), "no clause that the file adds, and that is not known, is of ~q", [PI]).
assumption_text(unit(Name), Text) :-
    format(string(Text), "the tests ~q are there before, and are replaced: nothing calls those", [Name]).
assumption_text(libraries, "it says where libraries are found: those that the file uses are SWI-Prolog's").
assumption_text(halts, "where the system halts, it runs the goals of at_halt/1: these end").
assumption_text(quasi, "it may read a quasi quotation: the goal that reads its text ends").
assumption_text(kept(PI), Text) :-
    format(string(Text), "no goal of the file waits for a variable of what ~q gives, or it ends", [PI]).
assumption_text(options, "the options that are not known hold no goal, or one that ends").
assumption_text(cyclic, "its unifications succeed with a cyclic term only: it is not reached, or ends with it").
assumption_text(flag(Flag), Text) :-
    format(string(Text), "the flag ~q is set: the file runs as it does without", [Flag]).
assumption_text(bound, "the upper bound of between/3 is not inf").
assumption_text(text, "the text that is formatted is not known: it has no ~@ and no ~W").
assumption_text(letter, "letters of format/2 that the file defines, if the text has them, run goals that end").
assumption_text(function, "the file's own function in arithmetic ends").
assumption_text(rewritten, "the file rewrites this when it is loaded: what comes of it ends as this does").
assumption_text(multifile, "other files may add clauses: these end").
assumption_text(conditional, "it depends on :- if: the clauses read here are those loaded").
assumption_text(tabled, "tabled with moded arguments or options: tabling does not call it more generally").
assumption_text(transparent, "it runs in the module of its caller: what it calls there ends, as if it were here").
assumption_text(imported, "it is also imported by its name: the clauses read here are those that are called").
assumption_text(adds, "clauses that the file adds to it, and that are not known, are facts").
assumption_text(unread, "this clause could not be read: nothing depends on it").
assumption_text(flags, "the reading of the text may change here: it is read as if it did not").
assumption_text(chr, "rules of CHR are not read: they end").
assumption_text(dialect(Dialect), Text) :-
    format(string(Text), "the file is for ~w: it is as for SWI-Prolog", [Dialect]).
assumption_text(include(Spec), Text) :-
    format(string(Text), "the included file ~q was not found: it adds no clauses", [Spec]).
assumption_text(inherits, "what is imported here has no name that the file calls").
assumption_text(loads(_), "what is loaded is not known: it adds no clauses").
assumption_text(asserts, "a clause that it adds is not known: it is of a dynamic predicate, and a fact").
assumption_text(adding, "a clause that it adds is not known: it is a fact").
assumption_text(left_out, "the program that covers the file is too large to have it: it ends").
