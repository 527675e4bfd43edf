:- module(trust,
          [ file_trusts/3,              % +Path, -Trusts, -Unread
            kept_trusts/2,              % +Path, -Trusts
            is_trust_line/2,            % +Path, +Line
            is_trusted/5,               % +Predicate, +From, +Trusts, +Project, -Trust
            discharged/5                % +Program0, +Project, +Trusts, -Program, -Used
          ]).

/** <module> What the author of a file vouches for

A predicate that is not read is assumed to end. A line

    :- trust terminates(clpfd:labeling/2).

or, which needs no definition of trust/1 where the file is loaded, a comment

    % cti: trust terminates(clpfd:labeling/2).

says that it does: then its clauses are not looked at where it is called, and that
assumption is not made. A trust is trust(Path, Line, Predicate), where a name
without a module means what it means in the files that were asked for.
*/

:- use_module(library(apply)).
:- use_module(library(lists)).
:- use_module(library(readutil)).
:- use_module(library(yall)).

%   `trust` is an operator in these texts alone: a file is read as SWI-Prolog
%   reads it.

:- op(1150, fx, trust_text:trust).

%!  file_trusts(+Path, -Trusts, -Unread) is det.
%
%   Trusts are those of a source file, each in a line of its own, and Unread has
%   place(Path, Line, Column, Text) for each line that should be one and is not.

file_trusts(Path, Trusts, Unread) :-
    file_lines(Path, Lines),
    findall(Line-Text, trust_text(Lines, Line, Text), Found),
    findall(trust(Path, Line, PI),
            ( member(Line-Text, Found), trusted_in(Text, PIs), member(PI, PIs) ),
            Trusts),
    findall(place(Path, Line, 1, "a trust is written as terminates(Name/Arity) or terminates(Module:Name/Arity)"),
            ( member(Line-Text, Found), \+ trusted_in(Text, _) ),
            Unread).

file_lines(Path, Lines) :-
    (   catch(read_file_to_string(Path, Text, [encoding(utf8)]), _, fail),
        sub_string(Text, _, _, _, "trust")
    ->  split_string(Text, "\n", "\r", Lines)
    ;   Lines = []
    ).

%!  is_trust_line(+Path, +Line) is semidet.
%
%   Line of the file is a directive of trust/1. SWI-Prolog's reader takes it for
%   a syntax error where the file declares no operator.

is_trust_line(Path, Line) :-
    file_lines(Path, Lines),
    nth1(Line, Lines, Text),
    directive_text(Text, _).

%   trust_text(+Lines, -Line, -Text): lines in a comment between /* and */ are
%   none.

trust_text(Lines, Line, Text) :-
    outside_comments(Lines, 1, outside, Outside),
    member(Line-Whole, Outside),
    (   directive_text(Whole, Text)
    ;   comment_text(Whole, Text)
    ).

outside_comments([], _, _, []).
outside_comments([Line|Lines], Number, State0, Outside) :-
    (   State0 == outside
    ->  Outside = [Number-Line|More]
    ;   Outside = More
    ),
    comment_state(State0, Line, State),
    Next is Number + 1,
    outside_comments(Lines, Next, State, More).

comment_state(State0, Line, State) :-
    (   State0 == outside
    ->  Mark = "/*", Other = inside
    ;   Mark = "*/", Other = outside
    ),
    (   sub_string(Line, _, 2, After, Mark)
    ->  sub_string(Line, _, After, 0, Rest),
        comment_state(Other, Rest, State)
    ;   State = State0
    ).

directive_text(Line, Text) :-
    after_words(Line, [":-", "trust"], Text).

comment_text(Line, Text) :-
    split_string(Line, "", " \t", [Trimmed]),
    string_concat("%", _, Trimmed),
    split_string(Trimmed, "", "%", [Comment]),
    after_words(Comment, ["cti:", "trust"], Text).

after_words(Line, [], Line).
after_words(Line, [Word|Words], Text) :-
    split_string(Line, "", " \t", [Trimmed]),
    string_concat(Word, Rest, Trimmed),
    \+ ( sub_string(Rest, 0, 1, _, Next), char_type(Next, csym) ),
    after_words(Rest, Words, Text).

trusted_in(Text, PIs) :-
    catch(setup_call_cleanup(open_string(Text, In), read_term(In, Term, [module(trust_text)]), close(In)), _, fail),
    trusted(Term, PIs).

%   trusted(+Term, -PIs): the predicates that Term vouches for.

trusted(Term, PIs) :-
    nonvar(Term),
    Term = terminates(Specs),
    findall(PI, ( specified(Specs, Spec), predicate_of(Spec, PI) ), PIs),
    findall(Spec, specified(Specs, Spec), All),
    same_length(All, PIs).

specified(Specs, Spec) :-
    (   nonvar(Specs), ( Specs = [_|_], member(One, Specs) ; Specs = (A, B), member(One, [A, B]) )
    *-> specified(One, Spec)
    ;   Spec = Specs
    ).

predicate_of(Spec, PI) :-
    nonvar(Spec),
    (   Spec = Module:Plain
    ->  atom(Module), plain_predicate(Plain, PI0), PI = Module:PI0
    ;   plain_predicate(Spec, PI)
    ).

plain_predicate(Spec, Name/Arity) :-
    nonvar(Spec),
    (   Spec = Name/Arity
    ->  true
    ;   Spec = Name//Arity0, integer(Arity0), Arity is Arity0 + 2
    ),
    atom(Name),
    integer(Arity).

%!  kept_trusts(+Path, -Trusts) is det.
%
%   Those of a file that has nothing else: `terminates(clpfd:labeling/2).`, with or
%   without `trust` and `:-` before it.
%
%   @throws error(no_trust(Path, Line), _) for another term.

kept_trusts(File, Trusts) :-
    absolute_file_name(File, Path, [access(read)]),
    setup_call_cleanup(open(Path, read, In, [encoding(utf8)]), read_trusts(In, Path, Trusts), close(In)).

read_trusts(In, Path, Trusts) :-
    read_term(In, Term, [module(trust_text), term_position(Position)]),
    (   Term == end_of_file
    ->  Trusts = []
    ;   stream_position_data(line_count, Position, Line),
        (   without_marks(Term, Plain), trusted(Plain, PIs)
        ->  true
        ;   throw(error(no_trust(Path, Line), _))
        ),
        findall(trust(Path, Line, PI), member(PI, PIs), Trusts0),
        append(Trusts0, More, Trusts),
        read_trusts(In, Path, More)
    ).

without_marks(Term, Plain) :-
    nonvar(Term),
    (   ( Term = (:- Inner) ; Term = trust(Inner) )
    ->  without_marks(Inner, Plain)
    ;   Plain = Term
    ).

%!  is_trusted(+Predicate, +From, +Trusts, +Project:dict, -Trust) is semidet.
%
%   Trust is one of Trusts that names Predicate, which the module From calls.

is_trusted(Predicate, From, Trusts, Project, Trust) :-
    member(Trust, Trusts),
    Trust = trust(Path, _, Named),
    names(Named, Predicate, Path, From, Project),
    !.

names(Module:PI, Module:PI, _, _, _).
names(user:Name/Arity, Name/Arity, _, _, _).
names(Name/Arity, Predicate, Path, From, Project) :-
    (   Predicate = Name/Arity
    ;   Predicate = _:Name/Arity
    ),
    trusting_module(Path, Project, From).

%   Those of --trust are for all files.

trusting_module(Path, Project, Module) :-
    (   member(Source, Project.sources),
        Source.path == Path
    ->  Module = Source.module
    ;   member(Source, Project.sources),
        Module = Source.module
    ).

%!  discharged(+Program0, +Project, +Trusts, -Program, -Used) is det.
%
%   Program is Program0 without the notes that say that something is trusted, or
%   that a trusted predicate which is built in ends. Used are the Trusts on which
%   that rests.

discharged(Program, _, [], Program, []) :- !.
discharged(Program0, Project, Trusts, Program, Used) :-
    maplist(without_trusted(Project, Trusts), Program0, Program, Lists),
    append(Lists, All),
    sort(All, Used).

without_trusted(Project, Trusts, predicate(Key, Clauses, Notes0), predicate(Key, Clauses, Notes), Used) :-
    findall(Note, ( member(Note, Notes0), \+ discharges(Note, Key, Project, Trusts, _) ), Notes),
    findall(Trust, ( member(Note, Notes0), discharges(Note, Key, Project, Trusts, Trust) ), Used).

discharges(note(_, Doubt), Key, Project, Trusts, Trust) :-
    doubts_trust(Doubt, Key, Project, Trusts, Trust).

doubts_trust(trusted(Trust), _, _, _, Trust).
doubts_trust(directive(Doubt), Key, Project, Trusts, Trust) :-
    doubts_trust(Doubt, Key, Project, Trusts, Trust).
doubts_trust(risk(runs, PI), Key, Project, Trusts, Trust) :-
    doubts_trust(external(system:PI), Key, Project, Trusts, Trust).
doubts_trust(external(system:PI), Key, Project, Trusts, Trust) :-
    key_module(Key, Project, Module),
    is_trusted(system:PI, Module, Trusts, Project, Trust).

%   Directives are of any of the files.

key_module(directives, Project, Module) :-
    !,
    member(Source, Project.sources),
    Module = Source.module.
key_module(part(Key, _), Project, Module) :-
    !,
    key_module(Key, Project, Module).
key_module(special(Key, _), Project, Module) :-
    !,
    key_module(Key, Project, Module).
key_module(Module:_, _, Module).
