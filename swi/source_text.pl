:- module(source_text,
          [ text_lines/2,               % +Text, -Lines
            spans_codes/2,              % +Spans, -Codes
            call_end/3,                 % +Codes, +Column, -End
            escaped_codes/2             % +Codes, -Escaped
          ]).

/** <module> The text of a Prolog file in coloured pieces

A line is a list of span(Class, Codes), where Class is `comment`, `string` for what
is in quotes, `variable`, `number-token` or `plain`. This looks at characters alone,
and so is right but for files with a syntax of their own.
*/

:- use_module(library(lists)).

%!  text_lines(+Text:string, -Lines) is det.

text_lines(Text, Lines) :-
    string_codes(Text, Codes),
    tokens(Codes, Tokens),
    split_lines(Tokens, Lines0),
    (   append(Lines, [[]], Lines0)
    ->  true
    ;   Lines = Lines0
    ).

%   tokens(+Codes, -Tokens): spans, which may have ends of lines.

tokens([], []) :- !.
tokens(Codes, [span(Class, Token)|Tokens]) :-
    token(Class, Token, Codes, Rest),
    !,
    tokens(Rest, Tokens).

token(comment, Token, Codes, Rest) :-
    Codes = [0'%|_],
    up_to_code(Codes, 0'\n, Token, Rest).
token(comment, [0'/, 0'*|Token], [0'/, 0'*|Codes], Rest) :-
    up_to_close(Codes, Token, Rest).
token('number-token', Token, [0'0, 0''|Codes], Rest) :-
    (   Codes = [0'\\, Code|Rest]
    ->  Token = [0'0, 0'', 0'\\, Code]
    ;   Codes = [0'', 0''|Rest]
    ->  Token = [0'0, 0'', 0'', 0'']
    ;   Codes = [Code|Rest],
        Code \== 0'\n
    ->  Token = [0'0, 0'', Code]
    ).
token(string, [Quote|Token], [Quote|Codes], Rest) :-
    memberchk(Quote, [0'", 0'', 0'`]),
    quoted(Codes, Quote, Token, Rest).
token(Class, Token, Codes, Rest) :-
    Codes = [First|_],
    code_type(First, csym),
    word(Codes, Token, Rest),
    word_class(First, Class).
token(plain, [Code], [Code|Rest], Rest).

word_class(First, Class) :-
    (   code_type(First, digit)
    ->  Class = 'number-token'
    ;   ( First == 0'_ ; code_type(First, upper) )
    ->  Class = variable
    ;   Class = plain
    ).

word([Code|Codes], [Code|Token], Rest) :-
    code_type(Code, csym),
    !,
    word(Codes, Token, Rest).
word(Codes, [], Codes).

up_to_code([], _, [], []).
up_to_code([Code|Codes], End, Token, Rest) :-
    (   Code == End
    ->  Token = [], Rest = [Code|Codes]
    ;   Token = [Code|More],
        up_to_code(Codes, End, More, Rest)
    ).

up_to_close([], [], []).
up_to_close([Code|Codes], [Code|Token], Rest) :-
    (   Code == 0'*,
        Codes = [0'/|Rest]
    ->  Token = [0'/]
    ;   up_to_close(Codes, Token, Rest)
    ).

%   A quote that is doubled, or comes after a backslash, is one of the text.

quoted([], _, [], []).
quoted([Code|Codes], Quote, [Code|Token], Rest) :-
    (   Code == 0'\\,
        Codes = [Next|More]
    ->  Token = [Next|Token1],
        quoted(More, Quote, Token1, Rest)
    ;   Code \== Quote
    ->  quoted(Codes, Quote, Token, Rest)
    ;   Codes = [Quote|More]
    ->  Token = [Quote|Token1],
        quoted(More, Quote, Token1, Rest)
    ;   Token = [], Rest = Codes
    ).

%   split_lines(+Tokens, -Lines): neighbours of one class are one span.

split_lines(Tokens, Lines) :-
    split_lines(Tokens, [], Lines).

split_lines([], Line0, [Line]) :-
    reverse(Line0, Line).
split_lines([span(Class, Codes)|Tokens], Line0, Lines) :-
    (   append(Before, [0'\n|After], Codes)
    ->  added(Before, Class, Line0, Line1),
        reverse(Line1, Line2),
        without_return(Line2, Line),
        Lines = [Line|More],
        split_lines([span(Class, After)|Tokens], [], More)
    ;   added(Codes, Class, Line0, Line1),
        split_lines(Tokens, Line1, Lines)
    ).

added([], _, Line, Line) :- !.
added(Codes, Class, [span(Class, Codes0)|Line], [span(Class, Both)|Line]) :-
    !,
    append(Codes0, Codes, Both).
added(Codes, Class, Line, [span(Class, Codes)|Line]).

without_return(Line0, Line) :-
    (   append(Before, [span(Class, Codes0)], Line0),
        append(Codes, [0'\r], Codes0)
    ->  append(Before, [span(Class, Codes)], Line)
    ;   Line = Line0
    ).

%!  spans_codes(+Spans, -Codes) is det.

spans_codes(Spans, Codes) :-
    findall(Part, member(span(_, Part), Spans), Parts),
    append(Parts, Codes).

%!  call_end(+Codes, +Column, -End) is det.
%
%   The call that begins at Column of the line Codes ends before column End: after
%   its name, and its arguments in parentheses, so far as they are in the line.

call_end(Codes, Column, End) :-
    Skipped is Column - 1,
    (   length(Before, Skipped),
        append(Before, Call, Codes)
    ->  tokens(Call, Tokens),
        call_length(Tokens, Length)
    ;   Length = 1
    ),
    End is Column + max(1, Length).

call_length([span(_, Name)|Tokens], Length) :-
    length(Name, NameLength),
    (   Tokens = [span(_, [0'(])|_]
    ->  closed_length(Tokens, 0, ArgumentsLength),
        Length is NameLength + ArgumentsLength
    ;   Length = NameLength
    ).

closed_length([], _, 0).
closed_length([span(Class, Codes)|Tokens], Depth0, Length) :-
    (   Class == comment
    ->  Length = 0
    ;   depth_after(Codes, Depth0, Depth),
        length(Codes, Here),
        (   Depth =:= 0
        ->  Length = Here
        ;   closed_length(Tokens, Depth, More),
            Length is Here + More
        )
    ).

depth_after([0'(], Depth0, Depth) :-
    !,
    Depth is Depth0 + 1.
depth_after([0')], Depth0, Depth) :-
    !,
    Depth is Depth0 - 1.
depth_after(_, Depth, Depth).

%!  escaped_codes(+Codes, -Escaped) is det.
%
%   As text of XML, or of an attribute. Control characters are not allowed there.

escaped_codes([], []).
escaped_codes([Code|Codes], Escaped) :-
    (   escape(Code, Text)
    ->  string_codes(Text, TextCodes),
        append(TextCodes, More, Escaped)
    ;   Escaped = [Code|More]
    ),
    escaped_codes(Codes, More).

escape(0'&, "&amp;").
escape(0'<, "&lt;").
escape(0'>, "&gt;").
escape(0'", "&quot;").
escape(Code, "\uFFFD") :-
    Code < 32,
    Code \== 0'\t,
    Code \== 0'\n.
