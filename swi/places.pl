:- module(places,
          [ forget_places/0,
            place_of_line/5,            % +Place, +Path, -File, -Line, -Column
            has_text/2,                 % +File, +Text
            clause_at/5,                % +File, +Line, +Operators, +PI, -Clause
            occurrences/3,              % +Clause, +PI, -Occurrences
            comment_patterns/2,         % +File, -Patterns
            variable_name/3             % +Clause, +Variable, -Name
          ]).

/** <module> Lines and columns of a source file

A clause that something is said of is read again, with the places of its
terms. Lines and columns count from 1.
*/

:- use_module(library(apply)).
:- use_module(library(lists)).
:- use_module(library(readutil)).

:- dynamic kept_file/2, kept_line/3, kept_clause/4.

%!  forget_places is det.
%
%   Files may have changed since they were last looked at.

forget_places :-
    retractall(kept_file(_, _)),
    retractall(kept_line(_, _, _)),
    retractall(kept_clause(_, _, _, _)).

%!  place_of_line(+Place, +Path, -File, -Line, -Column) is det.
%
%   Place is a line of Path, or File:Line, where the line is 0 if it is not known.
%   Column is where the text of that line begins, and 1 if it is not known.

place_of_line(Place, Path, File, Line, Column) :-
    (   Place = File:Line0
    ->  true
    ;   File = Path,
        Line0 = Place
    ),
    Line is max(1, Line0),
    first_column(File, Line, Column).

first_column(File, Line, Column) :-
    (   line_text(File, Line, Text),
        sub_string(Text, Before, 1, _, Char),
        \+ memberchk(Char, [" ", "\t"])
    ->  Column is Before + 1
    ;   Column = 1
    ).

line_text(File, Line, Text) :-
    line_count(File, _),
    kept_line(Line, File, Text).

%   line_count(+File, -Count): where it cannot be read, it has no lines.

line_count(File, Count) :-
    kept_file(File, Count0),
    !,
    Count = Count0.
line_count(File, Count) :-
    (   catch(read_file_to_string(File, Text, [encoding(utf8)]), _, fail)
    ->  split_string(Text, "\n", "", Lines)
    ;   Lines = []
    ),
    length(Lines, Count),
    assertz(kept_file(File, Count)),
    forall(nth1(Line, Lines, Text1), assertz(kept_line(Line, File, Text1))).


%!  has_text(+File, +Text) is semidet.
%
%   A line of File has Text in it.

has_text(File, Text) :-
    line_count(File, _),
    kept_line(_, File, Line),
    sub_string(Line, _, _, _, Text),
    !.

%!  clause_at(+File, +Line, +Operators, +PI, -Clause:dict) is semidet.
%
%   Clause is clause{term, positions, names, file, line, text}: the clause of the
%   predicate PI that begins at Line of File. Operators is the module whose
%   operators the text has.

clause_at(File, Line, Operators, PI, Clause) :-
    (   kept_clause(Line, File, PI, Kept)
    ->  true
    ;   read_clause(File, Line, Operators, PI, Read)
    ->  Kept = found(Read),
        assertz(kept_clause(Line, File, PI, Kept))
    ;   Kept = none,
        assertz(kept_clause(Line, File, PI, Kept))
    ),
    Kept = found(Clause).

read_clause(File, Line, Operators, PI, Clause) :-
    member(Most, [60, 3000]),
    lines_from(File, Line, Most, Text),
    setup_call_cleanup(open_string(Text, In),
                       clause_in(In, Operators, PI, Term, Positions, Names),
                       close(In)),
    !,
    Clause = clause{term:Term, positions:Positions, names:Names, file:File, line:Line, text:Text}.

lines_from(File, Line, Most, Text) :-
    line_count(File, Count),
    Last is min(Count, Line + Most),
    findall(One, ( between(Line, Last, N), line_text(File, N, One) ), Ones),
    atomic_list_concat(Ones, '\n', Atom),
    atom_string(Atom, Text).

%   Some clauses may stand in one line.

clause_in(In, Operators, PI, Term, Positions, Names) :-
    catch(read_term(In, Term0,
                    [ module(Operators), subterm_positions(Positions0), variable_names(Names0),
                      term_position(Position), syntax_errors(error) ]),
          _, fail),
    Term0 \== end_of_file,
    stream_position_data(line_count, Position, 1),
    (   is_clause_of(Term0, PI)
    ->  Term = Term0, Positions = Positions0, Names = Names0
    ;   clause_in(In, Operators, PI, Term, Positions, Names)
    ).

is_clause_of(Term, PI) :-
    head_and_body(Term, Head, _, Grammar),
    strip_module(Head, _, Plain0),
    (   nonvar(Plain0), Plain0 = (Plain, _)     % a guard, or a pushback
    ->  true
    ;   Plain = Plain0
    ),
    callable(Plain),
    (   compound(Plain)
    ->  compound_name_arity(Plain, Name, Arity0)
    ;   Name = Plain, Arity0 = 0
    ),
    (   Grammar == grammar
    ->  Arity is Arity0 + 2
    ;   Arity = Arity0
    ),
    PI = Name/Arity.

%   head_and_body(+Clause, -Head, -BodyArgument, -Kind)

head_and_body(_:Clause, Head, Body, Kind) :-
    !,
    nonvar(Clause),
    head_and_body(Clause, Head, Body, Kind).
head_and_body((Head --> Body), Head, Body, grammar) :- !.
head_and_body('==>'(Head, Body), Head, Body, grammar) :- !.
head_and_body((Head :- Body), Head, Body, plain) :- !.
head_and_body((Head => Body), Head, Body, plain) :- !.
head_and_body(Head, Head, true, plain).

%!  occurrences(+Clause:dict, +PI, -Occurrences) is det.
%
%   Occurrences are Goal-Place for the terms in the body of Clause that may be
%   calls of PI, at Place, Line-Column, in the order of the text: they have the
%   predicate's name, and its arity, or in a grammar rule two less; or, where
%   there is none of these, fewer arguments, to which others are added. Goal has
%   the variables of Clause.

occurrences(Clause, PI, Occurrences) :-
    (   body_positions(Clause.term, Clause.positions, Body, Positions, Kind)
    ->  subterms(Body, Positions, Subterms, []),
        convlist(named_as(PI), Subterms, Named0),
        sort(1, @=<, Named0, Named),
        (   memberchk(named(_, 0, _), Named)
        ->  Lacking = 0
        ;   Kind == grammar, memberchk(named(_, 2, _), Named)
        ->  Lacking = 2
        ;   true
        ),
        include(lacks(Lacking), Named, Wanted),
        maplist(placed(Clause), Wanted, Occurrences)
    ;   Occurrences = []
    ).

lacks(Lacking, named(_, Lacking0, _)) :-
    \+ Lacking \= Lacking0.

placed(Clause, named(Offset, _, Goal), Goal-Place) :-
    place_of_offset(Clause, Offset, Place).

named_as(Name/Arity, Offset-Term, named(Offset, Lacking, Term)) :-
    is_named(Term, Name, Arity, Lacking).

is_named(Term, Name, Arity, Lacking) :-
    callable(Term),
    (   compound(Term)
    ->  compound_name_arity(Term, Name, Arity0)
    ;   Name = Term, Arity0 = 0
    ),
    Lacking is Arity - Arity0,
    Lacking >= 0.

body_positions(Term, parentheses_term_position(_, _, Positions0), Body, Positions, Kind) :-
    !,
    body_positions(Term, Positions0, Body, Positions, Kind).
body_positions(_:Term, term_position(_, _, _, _, [_, Positions0]), Body, Positions, Kind) :-
    !,
    body_positions(Term, Positions0, Body, Positions, Kind).
body_positions(Term, term_position(_, _, _, _, [_, Positions]), Body, Positions, Kind) :-
    head_and_body(Term, Head, Body, Kind),
    Head \== Term.

%   subterms(+Term, +Positions, -Subterms, ?Rest): Offset-Subterm, and no copies.

subterms(Term, _, Subterms, Subterms) :-
    var(Term),
    !.
subterms(Term, parentheses_term_position(_, _, Positions), Subterms, Rest) :-
    !,
    subterms(Term, Positions, Subterms, Rest).
subterms(Term, Positions, [Offset-Term|Subterms], Rest) :-
    start_of(Positions, Offset),
    inner_subterms(Positions, Term, Subterms, Rest).

inner_subterms(brace_term_position(_, _, Positions), {Term}, Subterms, Rest) :-
    !,
    subterms(Term, Positions, Subterms, Rest).
inner_subterms(term_position(_, _, _, _, Positions), Term, Subterms, Rest) :-
    compound(Term),
    !,
    compound_name_arguments(Term, _, Arguments),
    all_subterms(Positions, Arguments, Subterms, Rest).
inner_subterms(list_position(_, _, Positions, Tail), List, Subterms, Rest) :-
    !,
    list_subterms(Positions, List, Tail, Subterms, Rest).
inner_subterms(_, _, Rest, Rest).

all_subterms([P|Ps], [A|As], Subterms, Rest) :-
    !,
    subterms(A, P, Subterms, More),
    all_subterms(Ps, As, More, Rest).
all_subterms(_, _, Rest, Rest).

list_subterms([P|Ps], [A|As], Tail, Subterms, Rest) :-
    !,
    subterms(A, P, Subterms, More),
    list_subterms(Ps, As, Tail, More, Rest).
list_subterms([], Term, Tail, Subterms, Rest) :-
    Tail \== none,
    !,
    subterms(Term, Tail, Subterms, Rest).
list_subterms(_, _, _, Rest, Rest).

start_of(From-_, From).
start_of(string_position(From, _), From).
start_of(parentheses_term_position(_, _, Positions), From) :-
    start_of(Positions, From).
start_of(brace_term_position(From, _, _), From).
start_of(list_position(From, _, _, _), From).
start_of(dict_position(From, _, _, _, _), From).
start_of(term_position(From, _, NameFrom, _, _), Start) :-
    Start is min(From, NameFrom).

place_of_offset(Clause, Offset, Line-Column) :-
    sub_string(Clause.text, 0, Offset, _, Before),
    split_string(Before, "\n", "", Lines),
    length(Lines, Count),
    last(Lines, Last),
    Line is Clause.line + Count - 1,
    string_length(Last, Length),
    Column is Length + 1.

%!  variable_name(+Clause:dict, +Variable, -Name) is semidet.

variable_name(Clause, Variable, Name) :-
    member(Name=Other, Clause.names),
    Other == Variable,
    !.


%!  comment_patterns(+File, -Patterns) is det.
%
%   Patterns are PI-pattern(Letters, Line): a comment of PlDoc at Line gives this
%   pattern of PI, `b` where an argument is said to be known, by `+`, `++`, `:`
%   or `!`, and else `f`.

comment_patterns(File, Patterns) :-
    line_count(File, Count),
    findall(PI-pattern(Pattern, Line),
            ( between(1, Count, Line),
              line_text(File, Line, Text),
              comment_text(Text, Head),
              comment_pattern(Head, PI, Pattern) ),
            Patterns).

comment_pattern(Text, Name/Arity, Pattern) :-
    comment_term(Text, Term),
    comment_head(Term, Head, More),
    callable(Head),
    Head =.. [Name|Args],
    atom(Name),
    maplist(argument_letter, Args, Letters),
    append(Letters, More, Pattern),
    length(Pattern, Arity).

comment_text(Text, Head) :-
    sub_string(Text, 0, 2, _, Start),
    memberchk(Start, ["%!", "%%", "/*"]),
    member(Mark, ["%!", "%%", "/**"]),
    string_concat(Mark, Rest, Text),
    \+ sub_string(Rest, 0, 1, _, "%"),
    split_string(Rest, "", " \t", [Head0]),
    Head0 \== "",
    (   sub_string(Head0, Before, _, 0, ".")
    ->  sub_string(Head0, 0, Before, _, Head)
    ;   Head = Head0
    ).

:- op(100, xf, places:(//)).
:- op(200, xfx, places:(::)).
:- op(200, fy, places:(++)).
:- op(200, fy, places:(--)).
:- op(200, fy, places:(?)).
:- op(200, fy, places:(:)).
:- op(200, fy, places:(@)).
:- op(200, fy, places:(!)).

comment_term(Text, Term) :-
    catch(term_string(Term, Text, [module(places), syntax_errors(error)]), _, fail),
    nonvar(Term).

comment_head(Term is _, Head, More) :-
    !,
    comment_head(Term, Head, More).
comment_head(_:Term, Head, More) :-
    !,
    nonvar(Term),
    comment_head(Term, Head, More).
comment_head(Term, Head, More) :-
    (   Term = //(Head0)
    ->  Head = Head0,
        More = [b, f]
    ;   Head = Term,
        More = []
    ).

argument_letter(Argument, Letter) :-
    (   nonvar(Argument), Argument = Typed:_, nonvar(Typed)
    ->  argument_letter(Typed, Letter)
    ;   compound(Argument),
        compound_name_arguments(Argument, Mark, [_]),
        memberchk(Mark, [+, ++, :, !])
    ->  Letter = b
    ;   Letter = f
    ).
