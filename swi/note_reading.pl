:- module(note_reading,
          [ notes_read/3                % +PureFile, +Notes, -Read
          ]).

/** <module> What cti's notes about missing modes say

The sentences are those of docs/messages.md. One that is not understood is left
out: a reason is then taken from the certificate.
*/

:- use_module(library(apply)).
:- use_module(library(lists)).
:- use_module(library(readutil)).

%!  notes_read(+PureFile, +Notes, -Read) is det.
%
%   Notes are note(Line, Column, Sentence), as of cti_notes/3. Each clause of
%   PureFile is a line. Read has said(Name/Arity, What) for those that are
%   understood, with the name and arity of PureFile, and What one of
%
%     - falls_not(Calls)
%       no sum of sizes gets smaller at all of these calls
%     - given_up(What): `large(Count)` or `blown`
%     - callee(Call): it has no mode
%     - needs(Call, Names, After, Others)
%       the variables that are not known at Call, after another call or `none`,
%       and the other calls that lack something
%     - unmet(Calls): they need more than any query has
%
%   A call is at(Clause, Goal), the number of a clause and that of a goal in its
%   body.

notes_read(PureFile, Notes, Read) :-
    (   Notes == []
    ->  Read = []
    ;   read_file_to_string(PureFile, Text, [encoding(utf8)]),
        split_string(Text, "\n", "", List),
        compound_name_arguments(Lines, lines, List),
        convlist(note_read(Lines), Notes, Read)
    ).

note_read(Lines, note(Line, Column, Sentence), said(PI, What)) :-
    split_at(Sentence, " has no mode: ", Subject, Rest),
    predicate_text(Subject, PI),
    what(Rest, Said),
    located(Said, Line-Column, Lines, What),
    !.

%   what(+Text, -Said): with the places as Line-Column, and `here` for that of
%   the note.

what(Text, falls_not([here])) :-
    starts(Text, "no known size of ").
what(Text, falls_not(Places)) :-
    starts(Text, "no single weighted sum of sizes falls at all of these calls: ", Rest),
    places(Rest, Places).
what(Text, given_up(large(Count))) :-
    starts(Text, "its recursive group has ", Rest),
    split_at(Rest, " arguments", Digits, _),
    number_string(Count, Digits).
what(Text, given_up(blown)) :-
    starts(Text, "the search for a measure was given up").
what(Text, callee(here)) :-
    starts(Text, "it calls ").
what(Text, needs(here, Names, After, Others)) :-
    split_at(Text, " at this call needs ", _, Rest),
    split_at(Rest, ", and ", _, Lack0),
    (   split_at(Lack0, "; the call", Lack, OthersText0)
    ->  places_in(OthersText0, Others)
    ;   Lack = Lack0,
        Others = []
    ),
    (   split_at(Lack, " not known to be ", NamesText, AfterText)
    ->  quoted_names(NamesText, Names)
    ;   Names = [],
        AfterText = ""
    ),
    (   split_at(AfterText, " after the call at ", _, PlaceText),
        split_string(PlaceText, ",", "", [First|_]),
        place(First, Place)
    ->  After = Place
    ;   After = none
    ).
what(Text, unmet(Places)) :-
    split_at(Text, " arguments of a query are enough for all the calls of its clauses", _, Rest),
    places_in(Rest, Places).

starts(Text, Start) :-
    starts(Text, Start, _).

starts(Text, Start, Rest) :-
    string_concat(Start, Rest, Text).

split_at(Text, Between, Before, After) :-
    sub_string(Text, Start, _, Length, Between),
    !,
    sub_string(Text, 0, Start, _, Before),
    sub_string(Text, _, Length, 0, After).

%   `'user:p'/2` in back quotes, as a term.

predicate_text(Text, Name/Arity) :-
    string_concat("`", Rest, Text),
    string_concat(Plain, "`", Rest),
    catch(term_string(Name/Arity, Plain), _, fail),
    atom(Name),
    integer(Arity).

quoted_names(Text, Names) :-
    split_string(Text, "`", "", Parts),
    odd_parts(Parts, Names).

odd_parts([_, Name|Parts], [Name|Names]) :-
    !,
    odd_parts(Parts, Names).
odd_parts(_, []).

%   The places in a text, wherever they stand, or in a list that may end in "..".

places_in(Text, Places) :-
    split_string(Text, " ", " ,:", Words),
    convlist(place, Words, Places).

places(Text, Places) :-
    places_in(Text, Places),
    Places = [_|_].

place(Text, Line-Column) :-
    split_string(Text, ":", "", [LineText, ColumnText]),
    number_string(Line, LineText),
    number_string(Column, ColumnText).

%   located(+Said, +Here, +Lines, -What): places are calls.

located(falls_not(Places), Here, Lines, falls_not(Calls)) :-
    maplist(call_at(Here, Lines), Places, Calls).
located(given_up(What), _, _, given_up(What)).
located(callee(Place), Here, Lines, callee(Call)) :-
    call_at(Here, Lines, Place, Call).
located(needs(Place, Names, After0, Others0), Here, Lines, needs(Call, Names, After, Others)) :-
    call_at(Here, Lines, Place, Call),
    (   After0 == none
    ->  After = none
    ;   call_at(Here, Lines, After0, After)
    ),
    maplist(call_at(Here, Lines), Others0, Others).
located(unmet(Places), Here, Lines, unmet(Calls)) :-
    maplist(call_at(Here, Lines), Places, Calls).

call_at(Here, Lines, here, Call) :-
    !,
    call_at(Here, Lines, Here, Call).
call_at(_, Lines, Line-Column, at(Line, Goal)) :-
    arg(Line, Lines, Text),
    characters_before(Text, Column, Offset),
    term_string_positions(Text, Positions),
    Positions = term_position(_, _, _, _, [_, Body]),
    goal_positions(Body, Goals, []),
    nth1(Goal, Goals, GoalPositions),
    arg(1, GoalPositions, Offset),
    !.

term_string_positions(Text, Positions) :-
    setup_call_cleanup(open_string(Text, In),
                       read_term(In, _, [module(note_reading), subterm_positions(Positions)]),
                       close(In)).

%   Commas between goals are not in parentheses.

goal_positions(term_position(From, _, NameFrom, NameTo, [A, B]), Goals, Rest) :-
    NameTo =:= NameFrom + 1,
    NameFrom > From,                    % an infix operator: = or a comma
    arg(1, A, From),
    arg(2, A, NameFrom),
    !,
    Goals = [A|More],
    goal_positions(B, More, Rest).
goal_positions(Positions, [Positions|Rest], Rest).

%   characters_before(+Text, +Column, -Count): columns count bytes.

characters_before(Text, Column, Count) :-
    string_codes(Text, Codes),
    Bytes is Column - 1,
    characters_before(Codes, Bytes, 0, Count).

characters_before(_, 0, Count, Count) :- !.
characters_before([Code|Codes], Bytes0, Count0, Count) :-
    (   Code < 0x80
    ->  Length = 1
    ;   Code < 0x800
    ->  Length = 2
    ;   Code < 0x10000
    ->  Length = 3
    ;   Length = 4
    ),
    Bytes is Bytes0 - Length,
    Count1 is Count0 + 1,
    characters_before(Codes, Bytes, Count1, Count).
