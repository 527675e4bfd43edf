:- module(analyses,
          [ analysed/6,                 % +PureFile, +Prefix, +Names, +Kinds, -Found, +Options
            minimal_modes/2,            % +Modes, -Minimal
            asks_less/2                 % +By, +Other
          ]).

/** <module> All that cti finds of a pure program

Each row of analysis/4 is a question to cti, with a certificate of its own.
The modes of all of them hold, so their union does.
*/

:- use_module(library(apply)).
:- use_module(library(assoc)).
:- use_module(library(lists)).
:- use_module(library(option)).
:- use_module(library(readutil)).
:- use_module(library(thread)).
:- use_module(library(yall)).
:- use_module(cti).
:- use_module(note_reading).

%   analysis(Analysis, By, Words, Check): cti is asked by Words, the modes that
%   it finds ask for arguments that are known `By`, and Check is the command that
%   checks its certificate, or `none`. The first one is always asked, and the
%   others where it leaves something to be found.

analysis(term_size, ground, [infer], check).
analysis(list_size, length, [infer, '--norm', list], check).
analysis(lists_of_mappings, ground, [lex], none).

%!  analysed(+PureFile, +Prefix, +Names, +Kinds, -Found:dict, +Options) is det.
%
%   Found is found{modes, results, unanswered}: an assoc of each key's list of
%
%       found(Arguments, By, Analyses)
%
%   of which none follows from another, and for each analysis that was done
%
%       result{analysis, by, facts, notes, checked, modes}
%
%   with its certificate, cti's notes as of notes_read/3, and an assoc of each
%   key's list of sets. The certificates' names begin with Prefix. unanswered
%   has the analyses that gave no answer, or not in time.

analysed(PureFile, Prefix, Names, Kinds, found{modes:Modes, results:Results, unanswered:Unanswered}, Options) :-
    option(timeout(Timeout), Options, 12),
    get_time(Now),
    Deadline is Now + Timeout,
    Work = work{pure:PureFile, prefix:Prefix, deadline:Deadline, names:Names},
    wanted(Options, [First|Others]),
    outcome(Work, Options, First, FirstOutcome),
    (   leaves_something(FirstOutcome, Kinds)
    ->  concurrent_maplist(outcome(Work, Options), Others, OtherOutcomes)
    ;   OtherOutcomes = []
    ),
    Outcomes = [FirstOutcome|OtherOutcomes],
    findall(Result, member(done(Result), Outcomes), Results),
    findall(Analysis, member(failed(Analysis, _), Outcomes), Unanswered),
    (   Results == []
    ->  FirstOutcome = failed(_, Error),
        throw(Error)
    ;   true
    ),
    findall(Key-Found, ( member(Key-_, Names), found_of(Key, Results, Found) ), Pairs),
    list_to_assoc(Pairs, Modes).

wanted(Options, Analyses) :-
    (   option(norm(term), Options)
    ->  Analyses = [term_size]
    ;   option(norm(list), Options)
    ->  Analyses = [list_size]
    ;   findall(Analysis, analysis(Analysis, _, _, _), Analyses)
    ).

%   Where each recursive predicate ends for all queries, so do all others.

leaves_something(failed(_, _), _).
leaves_something(done(Result), Kinds) :-
    gen_assoc(Key, Kinds, recursive),
    get_assoc(Key, Result.modes, Sets),
    Sets \== [[]],
    !.

%   outcome(+Work, +Options, +Analysis, -Outcome): done(Result), or
%   failed(Analysis, Error) where cti gives no answer.

outcome(Work, Options, Analysis, Outcome) :-
    catch(( result(Work, Options, Analysis, Result), Outcome = done(Result) ),
          Error,
          Outcome = failed(Analysis, Error)),
    (   Outcome = failed(_, Other),
        \+ ( Other = error(cti_error(Status, _), _), Status \== internal )
    ->  throw(Other)
    ;   true
    ).

result(Work, Options, Analysis, Result) :-
    analysis(Analysis, By, Words, Check),
    certificate_file(Analysis, Work.prefix, Certificate),
    time_left(Work, Seconds),
    cti_certify(Words, Work.pure, Certificate, Message, [timeout(Seconds)]),
    (   ( Check == none ; option(check(false), Options) )
    ->  Checked = false
    ;   time_left(Work, More),
        cti_check(Work.pure, Certificate, [timeout(More), command(Check)])
    ->  Checked = true
    ;   throw(error(cti_error(internal, "a certificate is not valid"), _))
    ),
    read_file_to_terms(Certificate, Facts, [encoding(utf8)]),
    modes_by_key(Work, Facts, Modes),
    cti_notes(Work.pure, Message, Notes0),
    notes_read(Work.pure, Notes0, Notes),
    Result = result{analysis:Analysis, by:By, facts:Facts, notes:Notes, checked:Checked, modes:Modes}.

time_left(Work, Seconds) :-
    get_time(Now),
    Seconds is max(0.01, Work.deadline - Now).

certificate_file(Analysis, Prefix, Certificate) :-
    (   Analysis == term_size
    ->  Extension = cert
    ;   atom_concat(Analysis, '.cert', Extension)
    ),
    file_name_extension(Prefix, Extension, Certificate).

%   The certificate's predicates by key. It names each predicate of the program,
%   so a key that it does not name is an error of this program, and no mode.

modes_by_key(Work, Facts, Modes) :-
    findall(Predicate-Sets, member(terminates(Predicate, Sets), Facts), Pairs),
    list_to_assoc(Pairs, ByName),
    findall(Key-Sets,
            ( member(Key-Predicate, Work.names),
              certified_sets(Predicate, ByName, Sets0),
              key_sets(Key, Sets0, Sets) ),
            ByKey),
    list_to_assoc(ByKey, Modes).

certified_sets(Predicate, ByName, Sets) :-
    (   get_assoc(Predicate, ByName, Sets0)
    ->  Sets = Sets0
    ;   format(string(Message), "the certificate does not name ~q", [Predicate]),
        throw(error(cti_error(internal, Message), _))
    ).

%   An argument that stands for many is all of them.

key_sets(_:_/Arity, Sets0, Sets) :-
    Arity > 12,
    !,
    findall(Set, ( member(Set0, Sets0), all_arguments(Set0, Arity, Set) ), Sets).
key_sets(_, Sets, Sets).

all_arguments(Set0, Arity, Set) :-
    (   append(First, [12], Set0)
    ->  numlist(12, Arity, Others),
        append(First, Others, Set)
    ;   Set = Set0
    ).

%   found_of(+Key, +Results, -Found): the union.

found_of(Key, Results, Found) :-
    findall(mode{arguments:Set, by:By},
            ( member(Result, Results),
              get_assoc(Key, Result.modes, Sets),
              member(Set, Sets),
              by_of(Set, Result.by, By) ),
            All),
    minimal_modes(All, Minimal),
    findall(found(Arguments, By, Analyses),
            ( member(mode{arguments:Arguments, by:By}, Minimal),
              finders(Key, Arguments, By, Results, Analyses) ),
            Found).

finders(Key, Arguments, By, Results, Analyses) :-
    findall(Analysis,
            ( member(Result, Results),
              _{analysis:Analysis, by:By0, modes:Modes} :< Result,
              by_of(Arguments, By0, By),
              get_assoc(Key, Modes, Sets),
              memberchk(Arguments, Sets) ),
            Analyses).

by_of([], _, ground) :- !.
by_of(_, By, By).

%!  minimal_modes(+Modes, -Minimal) is det.
%
%   Minimal has the modes that do not follow from others, those that ask for
%   ground arguments first. A mode follows from one that asks for fewer
%   arguments, or for the length where it asks for what is ground.

minimal_modes(Modes0, Minimal) :-
    sort(Modes0, Modes),
    exclude(follows_from_another(Modes), Modes, Minimal0),
    predsort(by_kind, Minimal0, Minimal).

follows_from_another(Modes, Mode) :-
    member(Other, Modes),
    Other \== Mode,
    asks_less(Other.by, Mode.by),
    subset(Other.arguments, Mode.arguments),
    !.

%!  asks_less(+By, +Other) is semidet.
%
%   What a mode by By asks for is known wherever what one by Other asks for is.

asks_less(By, By).
asks_less(length, ground).

by_kind(Order, A, B) :-
    compare(Order, mode(A.by, A.arguments), mode(B.by, B.arguments)).
