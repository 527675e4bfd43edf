:- module(cti_page,
          [ write_page/2                % +Answer, +File
          ]).

/** <module> What is said of real files, as a page

One file of HTML, which is well-formed XML too, with all that it needs in it: the
files' text with the modes of each predicate before its first clause, the calls
that are to blame where there is none, what is assumed, and the calls of the files'
predicates as a drawing.
*/

:- use_module(library(apply)).
:- use_module(library(lists)).
:- use_module(library(readutil)).
:- use_module(answer_text).
:- use_module(call_drawing).
:- use_module(cti_report, [path_shown/2, report_version/1]).
:- use_module(source_text).

%!  write_page(+Answer:dict, +File) is det.
%
%   Answer is that of cti_file_answer/3 with the option calls(true).

write_page(Answer0, File) :-
    numbered_predicates(Answer0, Predicates),
    title(Answer0, Title),
    with_included(Answer0, Answer),
    setup_call_cleanup(open(File, write, Out, [encoding(utf8)]),
                       with_output_to_stream(Out, page(Title, Answer, Predicates)),
                       close(Out)).

%   with_included(+Answer0, -Answer): files has also those that others include.

with_included(Answer0, Answer) :-
    findall(Path, ( member(Predicate, Answer0.predicates), Path = Predicate.file ), Paths),
    append(Answer0.files, Paths, All),
    list_to_set(All, Files),
    Answer = Answer0.put(files, Files).

:- meta_predicate with_output_to_stream(+, 0).

with_output_to_stream(Out, Goal) :-
    current_output(Before),
    setup_call_cleanup(set_output(Out), once(Goal), set_output(Before)).

%   Predicates are Id-Predicate.

numbered_predicates(Answer, Predicates) :-
    findall(Id-Predicate, nth1(Id, Answer.predicates, Predicate), Predicates).

page(Title, Answer, Predicates) :-
    escaped(Title, EscapedTitle),
    style(Style),
    format("<!DOCTYPE html>~n<html lang=\"en\">~n<head>~n<meta charset=\"utf-8\"/>~n\
<meta name=\"viewport\" content=\"width=device-width, initial-scale=1\"/>~n<title>Modes of ~s</title>~n\
<style>~n~s</style>~n</head>~n<body>~n", [EscapedTitle, Style]),
    header(EscapedTitle, Predicates, Answer),
    calls(Answer, Predicates),
    table(Predicates, Answer),
    forall(nth1(Number, Answer.files, Path), source(Number, Path, Predicates, Answer)),
    assumptions(Answer),
    trusts(Answer.trusts, Answer),
    footer,
    format("</body>~n</html>~n").

title(Answer, Title) :-
    Answer.files = [First|Others],
    path_shown(First, Shown),
    (   Others == []
    ->  Title = Shown
    ;   length(Others, Count),
        format(string(Title), "~w and ~d more", [Shown, Count])
    ).

%   status(+Predicate, -Status): `ok`, `if` for modes with assumptions, `none`.

status(Predicate, Status) :-
    _{modes:Modes, assumptions:Numbers} :< Predicate,
    (   Modes == []
    ->  Status = none
    ;   Numbers == []
    ->  Status = ok
    ;   Status = if
    ).

header(Title, Predicates, Answer) :-
    length(Answer.assumptions, Assumptions),
    format("<header>~n<h1>~s</h1>~n<p class=\"counts\">~n", [Title]),
    forall(member(Status-Text, [ok-"with a mode", if-"with a mode under assumptions", none-"without a mode"]),
           (   status_count(Status, Predicates, Count),
               Count > 0
           ->  format("<span class=\"chip ~w\"><b>~d</b> ~s</span>~n", [Status, Count, Text])
           ;   true
           )),
    (   Assumptions > 0
    ->  format("<a class=\"chip\" href=\"#assumptions\"><b>~d</b> assumed</a>~n", [Assumptions])
    ;   true
    ),
    format("</p>~n<p class=\"lead\">Each query that meets a mode ends, with all of its answers: <code>b</code> \
stands for a ground argument, <code>l</code> for a list whose length is known, with any elements, or another term that \
is no variable, and <code>f</code> for anything.</p>~n</header>~n").

status_count(Status, Predicates, Count) :-
    findall(Id, ( member(Id-Predicate, Predicates), status(Predicate, Status) ), Ids),
    length(Ids, Count).


%   The drawing of the calls.

calls(Answer, Predicates) :-
    findall(node(Id, Label, Status),
            ( member(Id-Predicate, Predicates),
              status(Predicate, Status),
              format(string(Label), "~q", [Predicate.name]) ),
            Nodes),
    findall(Id-Callees,
            ( member(calls(Path, Name, Called), Answer.calls),
              id_of(Path-Name, Predicates, Id),
              findall(Callee, ( member(One, Called), id_of(One, Predicates, Callee) ), Callees) ),
            Edges),
    format("<section>~n<h2>Calls</h2>~n"),
    (   drawing(Nodes, Edges, Drawing)
    ->  format("<div class=\"scroll\">~n~s</div>~n<p class=\"small\">Callers stand above what they call. A frame is a \
component: predicates that call each other. A name leads to its clauses.</p>~n", [Drawing])
    ;   length(Nodes, Count),
        format("<p class=\"small\">The calls of ~d predicates are not drawn.</p>~n", [Count])
    ),
    format("</section>~n").

id_of(Path-Name, Predicates, Id) :-
    member(Id-Predicate, Predicates),
    _{file:Path, name:Name} :< Predicate,
    !.


%   The table of predicates.

table(Predicates, Answer) :-
    format("<section>~n<h2>Predicates</h2>~n<div class=\"scroll\">~n<table class=\"predicates\">~n"),
    forall(member(Id-Predicate, Predicates), row(Id, Predicate, Answer)),
    format("</table>~n</div>~n</section>~n").

row(Id, Predicate, Answer) :-
    _{name:Name, file:Path, line:Line, exported:Exported, reason_text:Reason} :< Predicate,
    status(Predicate, Status),
    (   Line >= 1
    ->  format("<tr class=\"~w\"><td class=\"where\">", [Status])
    ;   format("<tr class=\"~w\" id=\"p~d\"><td class=\"where\">", [Status, Id])     % no clause to lead to
    ),
    line_link(Path, Line, Answer),
    term_escaped(Name, NameText),
    format("</td><td class=\"name\"><a href=\"#p~d\">~s</a>", [Id, NameText]),
    (   Exported == true
    ->  format(" <span class=\"exported\">exported</span>")
    ;   true
    ),
    format("</td><td>"),
    (   Status == none
    ->  escaped(Reason, ReasonText),
        format("<span class=\"mark none\">no mode</span> <span class=\"reason\">~s</span>", [ReasonText])
    ;   marks(Predicate)
    ),
    not_shown(Predicate, Answer),
    format("</td></tr>~n").

not_shown(Predicate, Answer) :-
    forall(member(place(Path, Line, _, Text), Predicate.not_shown),
           ( escaped(Text, Escaped),
             format("<div class=\"reason\">"),
             line_link(Path, Line, Answer),
             format(" ~s</div>", [Escaped]) )).

%   marks(+Predicate): each mode as the pattern of a query, and the numbers of
%   what is assumed.

marks(Predicate) :-
    _{name:Name, modes:Modes, assumptions:Numbers} :< Predicate,
    status(Predicate, Status),
    forall(member(Mode, Modes),
           ( mode_pattern(Name, Mode, Pattern),
             term_escaped(Pattern, Text),
             mode_tip(Mode, Tip),
             format("<span class=\"mark ~w\" title=\"~s\">~s</span> ", [Status, Tip, Text]) )),
    (   Modes \== [],
        Predicate.checked == false
    ->  format("<span class=\"exported\">not checked</span> ")
    ;   true
    ),
    numbers(Numbers).

numbers([]) :- !.
numbers(Numbers) :-
    length(Numbers, Count),
    (   Count > 8
    ->  length(First, 8),
        append(First, _, Numbers),
        More is Count - 8,
        format(string(Rest), " and ~d more", [More])
    ;   First = Numbers, Rest = ""
    ),
    format("<span class=\"relies\">if"),
    forall(member(Number, First), format(" <a href=\"#a~d\">~d</a>", [Number, Number])),
    format("~s</span>", [Rest]).

mode_pattern(Name0, mode{arguments:Arguments, by:By}, Pattern) :-
    (   Name0 = Module:Name/Arity
    ->  Pattern = Module:Plain
    ;   Name0 = Name/Arity,
        Pattern = Plain
    ),
    findall(Letter,
            ( between(1, Arity, Position),
              (   memberchk(Position, Arguments)
              ->  letter(By, Letter)
              ;   Letter = f
              ) ),
            Letters),
    Plain =.. [Name|Letters].

letter(ground, b).
letter(length, l).

mode_tip(mode{arguments:[], by:_}, "every query ends") :- !.
mode_tip(mode{arguments:[One], by:By}, Tip) :-
    !,
    known_as(By, is, Known),
    format(string(Tip), "ends if argument ~d ~s", [One, Known]).
mode_tip(mode{arguments:Several, by:By}, Tip) :-
    known_as(By, are, Known),
    atomic_list_concat(Several, ', ', List),
    format(string(Tip), "ends if the arguments ~w ~s", [List, Known]).

known_as(ground, is, "is ground").
known_as(ground, are, "are ground").
known_as(length, is, "is a list whose length is known").
known_as(length, are, "are lists whose lengths are known").

%   line_link(+Path, +Line, +Answer)

line_link(Path, Line, Answer) :-
    (   nth1(Number, Answer.files, Path),
        Line >= 1
    ->  (   Answer.files = [_]
        ->  format("<a href=\"#f~d-~d\">~d</a>", [Number, Line, Line])
        ;   file_shown(Path, Shown0),
            escaped(Shown0, Shown),
            format("<a href=\"#f~d-~d\">~s:~d</a>", [Number, Line, Shown, Line])
        )
    ;   file_shown(Path, Shown0),
        escaped(Shown0, Shown),
        format("~s:~w", [Shown, Line])
    ).


%   The text of a file.

source(Number, Path, Predicates, Answer) :-
    path_shown(Path, Shown0),
    escaped(Shown0, Shown),
    format("<section>~n<h2>~s</h2>~n<div class=\"scroll\">~n<table class=\"code\">~n", [Shown]),
    file_marks(Path, Predicates, Answer, Heads, Culprits, Assumed),
    (   catch(read_file_to_string(Path, Text, [encoding(utf8)]), _, fail)
    ->  text_lines(Text, Lines),
        lines(Lines, 1, page(Number, Path, Answer, Heads, Culprits, Assumed))
    ;   true
    ),
    format("</table>~n</div>~n</section>~n").

%   file_marks(.., -Heads, -Culprits, -Assumed): Line-Id-Predicate for what begins
%   in a line, Line-culprit(Column, Name, Text) and Line-Assumption. All are in
%   the order of lines.

file_marks(Path, Predicates, Answer, Heads, Culprits, Assumed) :-
    findall(Line-(Id-Predicate), ( member(Id-Predicate, Predicates), _{file:Path, line:Line} :< Predicate ), Heads0),
    keysort(Heads0, Heads),
    findall(Line-culprit(Column, Name, Text),
            ( member(_-Predicate, Predicates),
              Predicate.modes == [],
              Name = Predicate.name,
              member(place(Path, Line, Column, Text), Predicate.reason_places) ),
            Culprits0),
    sort(Culprits0, Culprits),
    findall(Line-Assumption,
            ( member(Assumption, Answer.assumptions), _{file:Path, line:Line} :< Assumption ),
            Assumed0),
    keysort(Assumed0, Assumed).

lines([], _, _).
lines([Spans|Lines], Line, Page0) :-
    Page0 = page(Number, Path, Answer, Heads0, Culprits0, Assumed0),
    up_to(Line, Heads0, Heads, LineHeads),
    up_to(Line, Culprits0, Culprits, LineCulprits),
    up_to(Line, Assumed0, Assumed, LineAssumed),
    forall(member(Head, LineHeads), head_row(Head)),
    underlines(LineCulprits, Spans, Underlines),
    format("<tr id=\"f~d-~d\"><td class=\"number\"><a href=\"#f~d-~d\">~d</a></td><td class=\"text\">",
           [Number, Line, Number, Line, Line]),
    write_spans(Spans, Underlines),
    forall(member(Assumption, LineAssumed),
           ( escaped(Assumption.text, Tip),
             Number1 = Assumption.number,
             format("<a class=\"assumed\" href=\"#a~d\" title=\"~s\">~d</a>", [Number1, Tip, Number1]) )),
    format("</td></tr>~n"),
    forall(member(Culprit, LineCulprits), culprit_row(Culprit)),
    Next is Line + 1,
    lines(Lines, Next, page(Number, Path, Answer, Heads, Culprits, Assumed)).

%   up_to(+Line, +Pairs0, -Pairs, -Values): those of Pairs0 that are not after
%   Line, without their lines.

up_to(Line, [Line0-Value|Pairs0], Pairs, [Value|Values]) :-
    Line0 =< Line,
    !,
    up_to(Line, Pairs0, Pairs, Values).
up_to(_, Pairs, Pairs, []).

head_row(Id-Predicate) :-
    _{name:Name, reason_text:Reason} :< Predicate,
    status(Predicate, Status),
    format("<tr class=\"head\" id=\"p~d\"><td></td><td>", [Id]),
    (   Status == none
    ->  term_escaped(Name, NameText),
        escaped(Reason, ReasonText),
        format("<span class=\"mark none\">~s: no mode</span> <span class=\"reason\">~s</span>", [NameText, ReasonText])
    ;   marks(Predicate)
    ),
    format("</td></tr>~n").

%   underlines(+Culprits, +Spans, -Underlines): underline(From, To, Tip), from a
%   column to the one after the call. Calls that are to blame twice are
%   underlined once.

underlines([], _, []) :- !.
underlines(Culprits, Spans, Underlines) :-
    spans_codes(Spans, Codes),
    findall(Column, member(culprit(Column, _, _), Culprits), Columns0),
    sort(Columns0, Columns),
    findall(underline(Column, To, Tip),
            ( member(Column, Columns),
              call_end(Codes, Column, To),
              findall(One, ( member(culprit(Column, Name, Text), Culprits), culprit_text(Name, Text, One) ), Tips),
              atomic_list_concat(Tips, '; ', Tip) ),
            Underlines0),
    without_overlaps(Underlines0, 0, Underlines).

without_overlaps([], _, []).
without_overlaps([underline(From, To, Tip)|Rest], End, Underlines) :-
    (   From >= End
    ->  Underlines = [underline(From, To, Tip)|More],
        without_overlaps(Rest, To, More)
    ;   without_overlaps(Rest, End, Underlines)
    ).

culprit_text(Name, Text, One) :-
    format(string(One), "~q: ~w", [Name, Text]).

culprit_row(culprit(Column, Name, Text)) :-
    culprit_text(Name, Text, One),
    escaped(One, Escaped),
    Indent is Column - 1,
    format("<tr class=\"why\"><td></td><td style=\"padding-left:calc(~dch + 12px)\"><span>~s</span></td></tr>~n",
           [Indent, Escaped]).

write_spans(Spans, []) :-
    !,
    forall(member(span(Class, Codes), Spans), write_span(Class, Codes)).
write_spans(Spans, Underlines) :-
    underlined(Spans, 1, Underlines, none).

%   underlined(+Spans, +Column, +Underlines, +Open): Open is the column after the
%   underlined call, or `none`.

underlined([], _, _, Open) :-
    (   Open == none
    ->  true
    ;   format("</span>")
    ).
underlined([span(Class, Codes)|Spans], Column, Underlines, Open) :-
    (   Codes == []
    ->  underlined(Spans, Column, Underlines, Open)
    ;   Open \== none,
        Column >= Open
    ->  format("</span>"),
        underlined([span(Class, Codes)|Spans], Column, Underlines, none)
    ;   Open == none,
        Underlines = [underline(Column, To, Tip)|More]
    ->  escaped(Tip, Escaped),
        format("<span class=\"culprit\" title=\"~s\">", [Escaped]),
        underlined([span(Class, Codes)|Spans], Column, More, To)
    ;   next_change(Open, Underlines, Column, Length),
        first_codes(Length, Codes, First, Rest),
        length(First, Count),
        write_span(Class, First),
        Next is Column + Count,
        underlined([span(Class, Rest)|Spans], Next, Underlines, Open)
    ).

next_change(Open, Underlines, Column, Length) :-
    (   Open \== none
    ->  Length is Open - Column
    ;   Underlines = [underline(From, _, _)|_], From > Column
    ->  Length is From - Column
    ;   Length = 1000000
    ).

first_codes(Length, Codes, First, Rest) :-
    (   length(First, Length),
        append(First, Rest, Codes)
    ->  true
    ;   First = Codes, Rest = []
    ).

write_span(Class, Codes) :-
    escaped_codes(Codes, Escaped),
    (   Class == plain
    ->  format("~s", [Escaped])
    ;   format("<i class=\"~w\">~s</i>", [Class, Escaped])
    ).


%   What is assumed, and trusted.

assumptions(Answer) :-
    (   Answer.assumptions == []
    ->  true
    ;   format("<section id=\"assumptions\">~n<h2>Assumed</h2>~n<ul class=\"assumptions\">~n"),
        forall(member(Assumption, Answer.assumptions), assumption(Assumption, Answer)),
        format("</ul>~n</section>~n")
    ).

assumption(Assumption, Answer) :-
    _{number:Number, file:Path, line:Line, predicate:Predicate, text:Text0} :< Assumption,
    escaped(Text0, Text),
    format("<li id=\"a~d\"><b>~d</b> <span class=\"where\">", [Number, Number]),
    line_link(Path, Line, Answer),
    format("</span> <span>"),
    (   Predicate == file
    ->  true
    ;   term_escaped(Predicate, Name),
        format("<code>~s</code>: ", [Name])
    ),
    format("~s</span></li>~n", [Text]).

trusts([], _) :- !.
trusts(Trusts, Answer) :-
    format("<section id=\"trusted\">~n<h2>Trusted</h2>~n<ul class=\"assumptions\">~n"),
    forall(member(Trust, Trusts), trust(Trust, Answer)),
    format("</ul>~n</section>~n").

trust(Trust, Answer) :-
    _{file:Path, line:Line, predicate:PI, used:Used} :< Trust,
    (   Used == true
    ->  Text = "it ends"
    ;   Text = "not needed, as nothing is assumed of it"
    ),
    term_escaped(PI, Name),
    format("<li><span class=\"where\">"),
    line_link(Path, Line, Answer),
    format("</span> <span><code>~s</code>: ~s</span></li>~n", [Name, Text]).

footer :-
    report_version(Version),
    format("<footer>Always assumed: no cyclic terms, and no attributed variables in the query. Not proved: that the \
pure program covers the file. Made by cti-file ~w.</footer>~n", [Version]).


%   Text in HTML.

escaped(Text, Escaped) :-
    format(codes(Codes), "~w", [Text]),
    escaped_codes(Codes, Escaped).

term_escaped(Term, Escaped) :-
    format(codes(Codes), "~q", [Term]),
    escaped_codes(Codes, Escaped).

%   The style: light, or dark where that is preferred.

style("\
:root { color-scheme: light dark; --back: #fafaf8; --panel: #ffffff; --line: #e2e3df; --text: #1f2328; --soft: #6a7078;
  --link: #2157a8; --ok: #14703f; --ok-back: #e0f2e6; --if: #7d5200; --if-back: #fbefcf; --none: #b02a1f;
  --none-back: #fbe5e2; --comment: #6b7d6f; --string: #8a4b12; --variable: #5b3c99;
  --number: #1c6b82; --edge: #8a9099; }
@media (prefers-color-scheme: dark) {
  :root { --back: #14161a; --panel: #1b1e23; --line: #2d3138; --text: #d9dce1; --soft: #949aa3; --link: #8ab4f8;
    --ok: #6fd39b; --ok-back: #17301f; --if: #e6b84f; --if-back: #33290f; --none: #ff938a;
    --none-back: #3b1c1a; --comment: #86998b;
    --string: #e0a26b; --variable: #c0a6f2; --number: #79c3d8; --edge: #767d87; }
}
* { box-sizing: border-box; }
body { margin: 0 auto; padding: 24px 20px 48px; max-width: 1180px; background: var(--back); color: var(--text);
  font: 15px/1.5 system-ui, -apple-system, 'Segoe UI', 'Liberation Sans', sans-serif; }
h1 { margin: 0 0 8px; font-size: 24px; overflow-wrap: anywhere; }
h2 { margin: 32px 0 10px; font-size: 17px; overflow-wrap: anywhere; }
a { color: var(--link); text-decoration: none; }
a:hover { text-decoration: underline; }
code, .code, .mark, .name, svg text {
  font-family: ui-monospace, 'DejaVu Sans Mono', 'Liberation Mono', Menlo, Consolas, monospace; }
code { font-size: 13px; }
.counts { display: flex; flex-wrap: wrap; gap: 8px; margin: 0 0 10px; }
.chip { padding: 2px 10px; border: 1px solid var(--line); border-radius: 12px;
  background: var(--panel); font-size: 14px; }
.ok.chip { color: var(--ok); background: var(--ok-back); border-color: transparent; }
.if.chip { color: var(--if); background: var(--if-back); border-color: transparent; }
.none.chip { color: var(--none); background: var(--none-back); border-color: transparent; }
.lead, .small, footer { color: var(--soft); font-size: 14px; }
.lead { margin: 0; max-width: 80ch; }
.small { margin: 6px 0 0; }
.scroll { overflow-x: auto; background: var(--panel); border: 1px solid var(--line); border-radius: 8px; }
.mark { display: inline-block; padding: 0 7px; margin: 1px 0; border-radius: 5px;
  font-size: 13px; white-space: nowrap; }
.mark.ok { color: var(--ok); background: var(--ok-back); }
.mark.if { color: var(--if); background: var(--if-back); }
.mark.none { color: var(--none); background: var(--none-back); }
.reason { color: var(--soft); font-size: 14px; }
.relies { color: var(--if); font-size: 13px; }
.exported { color: var(--soft); font: 12px system-ui, sans-serif; }
table { border-collapse: collapse; width: 100%; }
.predicates td { padding: 4px 12px; border-top: 1px solid var(--line); vertical-align: top; }
.predicates tr:first-child td { border-top: 0; }
.predicates .where { text-align: right; width: 1%; white-space: nowrap; font-size: 13px; line-height: 24px; }
.where a { color: var(--soft); }
.predicates .name { width: 1%; white-space: nowrap; font-size: 13px; line-height: 24px; }
.code { font-size: 13px; line-height: 20px; }
.code td { padding: 0; }
.code .number { width: 1%; padding: 0 10px 0 12px; text-align: right; user-select: none;
  border-right: 1px solid var(--line); }
.code .number a { color: var(--soft); }
.code .text { padding: 0 12px; white-space: pre; }
.code .head td:first-child, .code .why td:first-child { border-right: 1px solid var(--line); }
.code .head td { padding: 6px 12px 1px;
  font-family: system-ui, -apple-system, 'Segoe UI', 'Liberation Sans', sans-serif; }
.code .why span { color: var(--none);
  font: 13px/20px system-ui, -apple-system, 'Segoe UI', 'Liberation Sans', sans-serif; }
.code .why span::before { content: '\\2191\\00a0'; }
.code tr:target td, li:target { background: var(--if-back); }
.code i { font-style: normal; }
.code .comment { color: var(--comment); font-style: italic; }
.code .string { color: var(--string); }
.code .variable { color: var(--variable); }
.code .number-token { color: var(--number); }
.culprit { text-decoration: underline wavy var(--none) 1px; text-underline-offset: 3px; background: var(--none-back);
  border-radius: 3px; cursor: help; }
.assumed { margin-left: 12px; padding: 0 6px; border-radius: 9px; font: 12px system-ui, sans-serif; color: var(--if);
  background: var(--if-back); }
.assumed + .assumed { margin-left: 4px; }
.assumptions { margin: 0; padding: 8px 14px; list-style: none; background: var(--panel); border: 1px solid var(--line);
  border-radius: 8px; }
.assumptions li { display: flex; gap: 12px; padding: 2px 4px; border-radius: 4px; }
.assumptions b { min-width: 2.5ch; text-align: right; color: var(--if); }
.assumptions .where { min-width: 5ch; text-align: right; white-space: nowrap; color: var(--soft); }
footer { margin-top: 32px; border-top: 1px solid var(--line); padding-top: 12px; }
svg { display: block; margin: 0 auto; }
svg text { font-size: 12px; text-anchor: middle; }
svg .node rect { stroke-width: 1.3; }
svg .ok rect { fill: var(--ok-back); stroke: var(--ok); }
svg .ok text { fill: var(--ok); }
svg .if rect { fill: var(--if-back); stroke: var(--if); }
svg .if text { fill: var(--if); }
svg .none rect { fill: var(--none-back); stroke: var(--none); }
svg .none text { fill: var(--none); }
svg .frame { fill: none; stroke: var(--soft); stroke-dasharray: 4 3; }
svg .edge { fill: none; stroke: var(--edge); stroke-width: 1.1; }
svg .tip { fill: var(--edge); }
svg a:hover rect { stroke-width: 2.4; }
@media print { body { max-width: none; } .scroll { overflow: visible; } }
").
