:- module(cti,
          [ cti_modes/2,                % +File, -Modes
            cti_modes/3,                % +File, -Modes, +Options
            cti_check/2,                % +File, +Certificate
            cti_check/3,                % +File, +Certificate, +Options
            cti_certificate/2,          % +File, -Facts
            cti_certificate/3,          % +File, -Facts, +Options
            cti_infer/3,                % +File, +Certificate, +Options
            cti_certify/5,              % +Words, +File, +Certificate, -Message, +Options
            cti_lex/2,                  % +File, -Modes
            cti_loop/3,                 % +File, +Query, -Answer
            cti_loop/4,                 % +File, +Query, -Answer, +Options
            cti_session/2,              % +Edits, -Modes
            cti_why/2,                  % +File, -Notes
            cti_why/3,                  % +File, -Notes, +Options
            cti_notes/3,                % +Path, +Message, -Notes
            cti_assertions/2,           % +File, -Assertions
            cti_lost/4                  % +File, +Modes, -Lost, +Options
          ]).

/** <module> The modes of pure programs, by the program cti

The program is looked for in the environment variable CTI and else on the
path. Where cti gives no answer, each predicate throws

    error(cti_error(Status, Message), _)

with its exit status and what it says on standard error.
*/

:- use_module(library(apply)).
:- use_module(library(error)).
:- use_module(library(lists)).
:- use_module(library(option)).
:- use_module(library(process)).
:- use_module(library(readutil)).

%!  cti_modes(+File, -Modes) is det.
%!  cti_modes(+File, -Modes, +Options) is det.
%
%   Modes is a list of Name/Arity-Sets, one for each predicate of the
%   program in File. Sets is a list of lists of argument numbers: every
%   query in which the arguments of one of the lists are ground ends.
%
%   Options is a list that may have norm(Norm), with Norm term or list;
%   term is the norm without it. With list the arguments do not have to be
%   ground: each may be any term but a variable and a list that ends in
%   one.

cti_modes(File, Modes) :-
    cti_modes(File, Modes, []).

cti_modes(File, Modes, Options) :-
    cti_certificate(File, Facts, Options),
    findall(Predicate-Sets, member(terminates(Predicate, Sets), Facts), Modes).

%!  cti_certificate(+File, -Facts) is det.
%!  cti_certificate(+File, -Facts, +Options) is det.
%
%   Facts is the certificate that cti infers, as a list of terms. Options
%   are those of cti_modes/3.

cti_certificate(File, Facts) :-
    cti_certificate(File, Facts, []).

cti_certificate(File, Facts, Options) :-
    absolute_path(File, Path),
    norm_words(Options, Words),
    run_cti([infer, file(Path)|Words], Status, Facts, Message),
    (   Status == 0
    ->  true
    ;   throw(error(cti_error(Status, Message), _))
    ).

%!  cti_check(+File, +Certificate) is semidet.
%!  cti_check(+File, +Certificate, +Options) is semidet.
%
%   True where the file Certificate has a valid certificate of the
%   program in File. Options may have timeout(Seconds), as for cti_infer/3, and
%   command(Command), another command of cti than `check` that does this.

cti_check(File, Certificate) :-
    cti_check(File, Certificate, []).

cti_check(File, Certificate, Options) :-
    absolute_path(File, Path),
    absolute_path(Certificate, CertificatePath),
    option(command(Command), Options, check),
    setup_call_cleanup(
        tmp_file_stream(utf8, Answer, Out),
        ( run_cti_to(Out, [Command, file(Path), file(CertificatePath)], Options, Status, Message),
          read_file_to_terms(Answer, Facts, [encoding(utf8)]) ),
        ( close(Out), delete_file(Answer) )),
    (   Status == 0
    ->  Facts = [yes]
    ;   Status == 1
    ->  fail
    ;   throw(error(cti_error(Status, Message), _))
    ).

norm_words(Options, ['--norm', Norm]) :-
    option(norm(Norm), Options),
    !,
    must_be(oneof([term, list]), Norm).
norm_words(_, []).

%!  cti_infer(+File, +Certificate, +Options) is det.
%
%   Writes the certificate that cti infers of File to the file Certificate.
%   Options:
%
%     - norm(+Norm)
%       What the size of a term is: `term`, as without the option, or `list`.
%     - timeout(+Seconds)
%       Ends the program after so long. Then Status in the error is `timeout`.

cti_infer(File, Certificate, Options) :-
    norm_words(Options, Norm),
    cti_certify([infer|Norm], File, Certificate, _, Options).

%!  cti_certify(+Words, +File, +Certificate, -Message:string, +Options) is det.
%
%   Runs cti with Words, a command and its options, and File, and writes what
%   it says on standard output to the file Certificate. Message is what it
%   says on standard error. Options may have timeout(Seconds), as for
%   cti_infer/3.

cti_certify(Words, File, Certificate, Message, Options) :-
    absolute_path(File, Path),
    absolute_path(Certificate, CertificatePath),
    append(Words, ['--', file(Path)], AllWords),
    setup_call_cleanup(open(CertificatePath, write, Out, [encoding(utf8)]),
                       run_cti_to(Out, AllWords, Options, Status, Message),
                       close(Out)),
    (   Status == 0
    ->  true
    ;   throw(error(cti_error(Status, Message), _))
    ).

%   run_cti_to(+Out, +Words, +Options, -Status, -Message): standard output goes
%   to the stream of a file. The program ends with this call, however that ends.

run_cti_to(Out, Words, Options, Status, Message) :-
    option(timeout(Timeout), Options, infinite),
    program(Program),
    setup_call_cleanup(
        tmp_file_stream(utf8, Messages, Err),
        ( setup_call_cleanup(
              process_create(Program, Words, [stdout(stream(Out)), stderr(stream(Err)), process(Process)]),
              ended(Process, Timeout, Status),
              killed(Process, Status)),
          read_file_to_string(Messages, Message, [encoding(utf8)]) ),
        ( close(Err), delete_file(Messages) )).

killed(Process, Status) :-
    (   nonvar(Status)
    ->  true
    ;   process_kill(Process, 9),
        process_wait(Process, _)
    ).

%   ended(+Process, +Timeout, -Status): process_wait/3 knows no time but 0 where
%   there is fork(), so it is asked again and again.

ended(Process, Timeout, Status) :-
    number(Timeout),
    !,
    get_time(Now),
    Deadline is Now + Timeout,
    ended_before(Deadline, Process, 0.001, Status).
ended(Process, _, Status) :-
    process_wait(Process, Ended),
    exit_status(Ended, Status).

ended_before(Deadline, Process, Pause, Status) :-
    process_wait(Process, Ended, [timeout(0)]),
    get_time(Now),
    (   Ended \== timeout
    ->  exit_status(Ended, Status)
    ;   Now >= Deadline
    ->  process_kill(Process, 9),
        process_wait(Process, _),
        Status = timeout
    ;   sleep(Pause),
        Longer is min(0.05, 1.5 * Pause),
        ended_before(Deadline, Process, Longer, Status)
    ).

exit_status(Ended, Status) :-
    (   Ended = exit(Status)
    ->  true
    ;   Status = Ended
    ).

%!  cti_why(+File, -Notes) is det.
%!  cti_why(+File, -Notes, +Options) is det.
%
%   Notes is a list of note(Line, Column, Sentence), one for each note that
%   cti writes about a predicate without a mode, with Sentence a string.
%   Options are those of cti_modes/3.

cti_why(File, Notes) :-
    cti_why(File, Notes, []).

cti_why(File, Notes, Options) :-
    absolute_path(File, Path),
    norm_words(Options, Words),
    run_cti([infer, file(Path)|Words], Status, _, Message),
    (   Status == 0
    ->  cti_notes(Path, Message, Notes)
    ;   throw(error(cti_error(Status, Message), _))
    ).

%!  cti_notes(+Path, +Message, -Notes) is det.
%
%   Notes are those of the file Path in Message, what cti said on standard
%   error, as for cti_why/2.

cti_notes(Path, Message, Notes) :-
    split_string(Message, "\n", "", Lines),
    convlist(note_in(Path), Lines, Notes).

note_in(Path, Text, note(Line, Column, Sentence)) :-
    string_concat(Path, ":", Start),
    string_concat(Start, Rest, Text),
    once(sub_string(Rest, Before, _, After, ": note: ")),
    sub_string(Rest, 0, Before, _, Place),
    split_string(Place, ":", "", [LineText, ColumnText]),
    number_string(Line, LineText),
    number_string(Column, ColumnText),
    sub_string(Rest, _, After, 0, Sentence).

%!  cti_assertions(+File, -Assertions) is det.
%
%   Assertions is a list of terms (:- pred Head), one for each mode, in the
%   form of Ciao's assertions: an argument of Head is + where the mode names
%   it, and ? elsewhere.

cti_assertions(File, Assertions) :-
    cti_modes(File, Modes),
    findall((:- pred(Head)),
            ( member((Name/Arity)-Sets, Modes),
              member(Set, Sets),
              numlist_to(Arity, Positions),
              maplist(marked(Set), Positions, Marks),
              Head =.. [Name|Marks] ),
            Assertions).

numlist_to(0, []) :- !.
numlist_to(Last, Positions) :-
    numlist(1, Last, Positions).

marked(Set, Position, Mark) :-
    (   memberchk(Position, Set)
    ->  Mark = (+)
    ;   Mark = (?)
    ).

%!  cti_lost(+File, +Modes, -Lost, +Options) is det.
%
%   Modes is a list as of cti_modes/2. Lost has of each predicate those of
%   its sets that are no longer modes of the program in File: none of the
%   modes that cti infers is a part of them. Predicates that have lost no
%   set are left out, so that [] says that all modes still hold. Options
%   are those of cti_modes/3, and lex(true), with which the modes of
%   cti_lex/2 are taken in place of those that cti infers.

cti_lost(File, Modes, Lost, Options) :-
    (   option(lex(true), Options)
    ->  cti_lex(File, Inferred)
    ;   cti_modes(File, Inferred, Options)
    ),
    findall(Predicate-Sets,
            ( member(Predicate-Wanted, Modes),
              exclude(is_mode(Inferred, Predicate), Wanted, Sets),
              Sets \== [] ),
            Lost).

is_mode(Inferred, Predicate, Set) :-
    memberchk(Predicate-Sets, Inferred),
    member(Mode, Sets),
    subset(Mode, Set),
    !.

%!  cti_lex(+File, -Modes) is det.
%
%   Modes is a list as of cti_modes/2, by lists of level mappings that are
%   compared in lexicographic order. It has the modes of some predicates
%   that have none by single mappings.

cti_lex(File, Modes) :-
    absolute_path(File, Path),
    run_cti([lex, '--', file(Path)], Status, Facts, Message),
    (   Status =:= 0
    ->  findall(Predicate-Sets, member(terminates(Predicate, Sets), Facts), Modes)
    ;   throw(error(cti_error(Status, Message), _))
    ).

%!  cti_loop(+File, +Query, -Answer) is det.
%!  cti_loop(+File, +Query, -Answer, +Options) is det.
%
%   Looks for a loop of Query, which is text, by the program in File.
%   Answer is loop(Before, Cycle), two lists of numbers of clauses, where
%   one was found, and then Query never ends; or no_loop(N), where there is
%   none in its N derivations; or stopped(100000), where there are more.
%
%   Options is a list that may have depth(D): a derivation has at most D
%   clauses, from 1 to 12. Without it that is 8.

cti_loop(File, Query, Answer) :-
    cti_loop(File, Query, Answer, []).

cti_loop(File, Query, Answer, Options) :-
    absolute_path(File, Path),
    depth_words(Options, Depth),
    append([loop|Depth], ['--', file(Path), Query], Words),
    run_cti(Words, Status, Facts, Message),
    (   memberchk(Status, [0, 1, 7])
    ->  Facts = [Answer]
    ;   throw(error(cti_error(Status, Message), _))
    ).

depth_words(Options, ['--depth', Depth]) :-
    option(depth(Depth), Options),
    !,
    must_be(between(1, 12), Depth).
depth_words(_, []).

%!  cti_session(+Edits, -Modes) is det.
%
%   Does Edits, one after another, from an empty program on. Each is a term
%   add(Clause), which adds a clause, del(K), which removes the clause of
%   number K, or modes(Name/Arity). Modes is a list of Name/Arity-Sets, one
%   for each modes(Name/Arity), for the program as it stands there; Sets is
%   as of cti_modes/2. No variable of a clause is bound or shared.

cti_session(Edits, Modes) :-
    must_be(list, Edits),
    tmp_file_stream(utf8, Path, Stream),
    call_cleanup(
        ( call_cleanup(maplist(write_edit(Stream), Edits), close(Stream)),
          run_cti([session, '--', file(Path)], Status, Facts, Message) ),
        delete_file(Path)),
    (   Status =:= 0
    ->  findall(Predicate-Sets, member(terminates(Predicate, Sets), Facts), Modes)
    ;   throw(error(cti_error(Status, Message), _))
    ).

%   Operators of this system need not be those of cti, so none are written.

write_edit(Stream, Edit) :-
    write_term(Stream, Edit, [quoted(true), ignore_ops(true)]),
    write(Stream, '.\n').

absolute_path(File, Path) :-
    absolute_file_name(File, Path, []).

program(Program) :-
    getenv('CTI', Path),
    !,
    absolute_path(Path, Program),
    (   access_file(Program, execute)
    ->  true
    ;   no_program(Path, 'the environment variable CTI names it')
    ).
program(Program) :-
    (   absolute_file_name(path(cti), Program, [access(execute), file_errors(fail)])
    ->  true
    ;   no_program(cti, 'it is not on the path, and the environment variable CTI names no other one')
    ).

no_program(Name, Why) :-
    throw(error(existence_error(program, Name), context(_, Why))).

%   The program writes its whole answer before the message, which is short,
%   so reading one after the other never blocks it.

run_cti(Words, Status, Facts, Message) :-
    program(Program),
    process_create(Program, Words,
                   [stdout(pipe(Out, [encoding(utf8)])), stderr(pipe(Err, [encoding(utf8)])), process(Process)]),
    call_cleanup(read_facts(Out, Facts), close(Out)),
    call_cleanup(read_string(Err, _, Message), close(Err)),
    process_wait(Process, exit(Status)).

%   Lines that are no terms, as the usage, are left out.

read_facts(Stream, Facts) :-
    catch(read_term(Stream, Fact, [module(cti)]), error(syntax_error(_), _), Fact = '$none'),
    read_facts(Fact, Stream, Facts).

read_facts(end_of_file, _, []) :- !.
read_facts('$none', Stream, Facts) :-
    !,
    read_facts(Stream, Facts).
read_facts(Fact, Stream, [Fact|Facts]) :-
    read_facts(Stream, Facts).
