:- encoding(utf8).

% Tests of the page of cti-file --html, read without a browser. Run them at the top of the repository, once bin/cti is
% built:
%
%     CTI=bin/cti swipl -g run_tests -t halt swi/test_page.pl

:- use_module(library(apply)).
:- use_module(library(filesex)).
:- use_module(library(lists)).
:- use_module(library(plunit)).
:- use_module(library(readutil)).
:- use_module(library(sgml)).
:- use_module(library(xpath)).
:- use_module(call_drawing).
:- use_module(cti_file).
:- use_module(cti_page).
:- use_module(source_text).

%   page(+Files, -Page, -Text): the page of Files, a list of Name-Text, as elements
%   of XML, and as text.

page(Files, Page, Text) :-
    tmp_file(page, Directory),
    make_directory(Directory),
    call_cleanup(page_in(Directory, Files, Page, Text), delete_directory_and_contents(Directory)).

page_in(Directory, Files, Page, Text) :-
    findall(Path,
            ( member(Name-FileText, Files),
              directory_file_path(Directory, Name, Path),
              setup_call_cleanup(open(Path, write, Out, [encoding(utf8)]), write(Out, FileText), close(Out)) ),
            Paths),
    directory_file_path(Directory, 'page.html', PagePath),
    cti_file_answer(Paths, Answer, [calls(true)]),
    write_page(Answer, PagePath),
    read_file_to_string(PagePath, Text, [encoding(utf8)]),
    parsed(Text, Page).

%   parsed(+Text, -Page): fails where a tag is not closed, which the parser mends.
%   The line of the doctype is no XML without a definition.

parsed(Text, Page) :-
    string_concat("<!DOCTYPE html>\n", Xml, Text),
    split_string(Xml, "<", "", [_|Pieces]),
    foldl(tag, Pieces, [], []),
    setup_call_cleanup(open_string(Xml, In),
                       load_structure(stream(In), Elements, [dialect(xml), space(preserve), syntax_errors(quiet)]),
                       close(In)),
    Elements = [Page|_].

%   tag(+Piece, +Open0, -Open): Piece is what comes after a `<`. Open has the names
%   of the elements that are open.

tag(Piece, Open0, Open) :-
    split_string(Piece, ">", "", [Tag, After]),          % no other `>` in the text
    \+ sub_string(After, _, _, _, "&nbsp;"),
    split_string(Tag, " \n", "", [Name|_]),
    (   string_concat("/", Closed, Name)
    ->  Open0 = [Closed|Open]
    ;   sub_string(Tag, _, 1, 0, "/")
    ->  Open = Open0
    ;   Open = [Name|Open0]
    ).

text_of(Element, Text) :-
    pieces(Element, Pieces, []),
    atomic_list_concat(Pieces, Atom),
    atom_string(Atom, Text).

pieces(element(_, _, Content), Pieces, Rest) :-
    !,
    foldl([One, P0, P]>>pieces(One, P0, P), Content, Pieces, Rest).
pieces(Text, [Text|Rest], Rest).

program("a.pl"-":- module(a, [app/3, q/1]).\napp([], L, L).\napp([H|T], L, [H|R]) :-\n    app(T, L, R).\n\
q(X) :- X \\== \"<&>\",\n    q(X), true.\nr(X) :- call(X).\n").

kept(Page, Text) :-
    program(File),
    page([File], Page, Text).

%   lost_links(+Page, -Lost): those that lead nowhere.

lost_links(Page, Lost) :-
    findall(Id, ( xpath(Page, //(*), element(_, Attributes, _)), member(id=Id, Attributes) ), Ids),
    is_set(Ids),
    findall(Link,
            ( xpath(Page, //(*), element(_, Attributes, _)), member(href=Link, Attributes),
              atom_concat(#, Id, Link), \+ memberchk(Id, Ids) ),
            Lost).


:- begin_tests(page).

test(well_formed) :-
    kept(_, _).
test(an_open_tag_is_found, [fail]) :-
    parsed("<!DOCTYPE html>\n<html><p></html>", _).
test(nothing_from_elsewhere) :-
    kept(Page, Text),
    \+ sub_string(Text, _, _, _, "<script"),
    \+ sub_string(Text, _, _, _, "@import"),
    \+ sub_string(Text, _, _, _, "src="),
    \+ ( xpath(Page, //(*), element(_, Attributes, _)), member(href=Link, Attributes), \+ sub_atom(Link, 0, _, _, #) ).
test(links_lead_somewhere, Lost == []) :-
    kept(Page, _),
    lost_links(Page, Lost).
test(links_to_what_has_no_clause_and_what_is_included, Lost == []) :-
    page(["a.pl"-":- dynamic d/1.\n:- include(b).\np(X) :- d(X), q(X).\n", "b.pl"-"q(X) :- q(X).\n"], Page, _),
    findall(Name, ( xpath(Page, //table(@class=predicates)//td(@class=name)/a, Link), text_of(Link, Name) ), Names),
    msort(Names, ["d/1", "p/1", "q/1"]),
    lost_links(Page, Lost).
test(text_is_the_files, Lines == [":- module(a, [app/3, q/1]).", "app([], L, L).", "app([H|T], L, [H|R]) :-",
                                  "    app(T, L, R).", "q(X) :- X \\== \"<&>\",", "    q(X), true.",
                                  "r(X) :- call(X).1"]) :-
    kept(Page, _),
    findall(Line, ( xpath(Page, //td(@class=text), Cell), text_of(Cell, Line) ), Lines).
test(modes_are_marks, Marks == ["app(l,f,f)", "app(f,f,l)", "q/1: no mode", "r(f)"]) :-
    kept(Page, _),
    findall(Mark,
            ( xpath(Page, //tr(@class=head), Row), xpath(Row, //span, Span),
              Span = element(_, Attributes, _), memberchk(class=Class, Attributes), sub_atom(Class, 0, _, _, mark),
              text_of(Span, Mark) ),
            Marks).
test(marks_stand_before_their_clauses) :-
    kept(Page, _),
    findall(Row, ( xpath(Page, //table(@class=code), Table), xpath(Table, tr, Row) ), Rows),
    nextto(element(tr, Head, _), element(tr, Line, _), Rows),
    memberchk(id=p2, Head),
    memberchk(id='f1-5', Line),
    !.
test(culprit_is_underlined, Culprits == ["q(X)"-'q/1: nothing gets smaller at this call']) :-
    kept(Page, _),
    findall(Text-Title, ( xpath(Page, //span(@class=culprit, @title=Title), Span), text_of(Span, Text) ), Culprits).
test(reason_stands_below) :-
    kept(Page, _),
    findall(Row, ( xpath(Page, //table(@class=code), Table), xpath(Table, tr, Row) ), Rows),
    nextto(element(tr, Line, _), Why, Rows),
    memberchk(id='f1-6', Line),
    Why = element(tr, [class=why], _),
    text_of(Why, "q/1: nothing gets smaller at this call"),
    !.
test(each_predicate_is_in_the_table, Names == ["app/3", "q/1", "r/1"]) :-
    kept(Page, _),
    findall(Name, ( xpath(Page, //table(@class=predicates)//td(@class=name)/a, Link), text_of(Link, Name) ), Names).
test(reason_is_in_the_table) :-
    kept(Page, _),
    xpath(Page, //table(@class=predicates)//tr(@class=none), Row),
    text_of(Row, Text),
    once(sub_string(Text, _, _, _, "at the call of q/1 at 6:5")),
    !.
test(assumption_and_line_are_linked) :-
    kept(Page, _),
    xpath(Page, //tr(@id='f1-7'), Row),
    xpath(Row, //a(@class=assumed, @href='#a1'), _),
    xpath(Page, //li(@id=a1), Item),
    xpath(Item, //a(@href='#f1-7'), _),
    !.
test(each_predicate_is_drawn, Names == ["app/3", "q/1", "r/1"]) :-
    kept(Page, _),
    findall(Name, ( xpath(Page, //svg//text, Element), text_of(Element, Name) ), Names0),
    sort(Names0, Names).
test(no_predicates) :-
    page(["a.pl"-"% nothing\n"], _, _).
test(characters_that_xml_does_not_allow) :-
    page(["a.pl"-"p('\u0001\u0007', \"ä\u20ac\", '&lt;').\n'<b>'(a) :- '<b>'(\"]]>\").\n"], Page, _),
    findall(Name, ( xpath(Page, //table(@class=predicates)//td(@class=name)/a, Link), text_of(Link, Name) ), Names),
    Names == ["p/3", "'<b>'/1"].
two_files(Page) :-
    page(["a.pl"-":- module(a, [p/1]).\np(X) :- p(X).\n",
          "b.pl"-":- module(b, [q/1]).\n:- use_module(a).\nq(X) :- p(X).\n"],
         Page, _).

test(two_files, Ids == ['f1-1', 'f2-1']) :-
    two_files(Page),
    findall(Id, ( xpath(Page, //tr(@id=Id), _), sub_atom(Id, _, _, 0, '-1') ), Ids).
test(calls_through_files, Count == 2) :-           % q of p, and p of itself
    two_files(Page),
    findall(E, xpath(Page, //svg/path(@class=edge), E), Edges),
    length(Edges, Count).
test(calls_through_a_library, Count == 2) :-
    page(["a.pl"-"p([X]) :- maplist(q, [X]).\nq(X) :- p(X).\n"], Page, _),
    findall(E, xpath(Page, //svg/path(@class=edge), E), Edges),
    length(Edges, Count),
    findall(F, xpath(Page, //svg/rect(@class=frame), F), [_]).

:- end_tests(page).


:- begin_tests(drawing).

drawn(Nodes, Edges, Svg) :-
    drawing(Nodes, Edges, Text),
    string_concat("<!DOCTYPE html>\n", Text, Page),
    parsed(Page, Svg).

%   place(+Svg, +Id, -X, -Y, -Width)

place(Svg, Id, X, Y, W) :-
    atom_concat('#p', Id, Link),
    xpath(Svg, //a(@href=Link)//rect(@x(number)=X, @y(number)=Y, @width(number)=W), _),
    !.

test(callers_stand_above) :-
    drawn([node(1, "p/1", ok), node(2, "q/1", ok), node(3, "r/1", ok)], [1-[2, 3], 2-[3]], Svg),
    place(Svg, 1, _, Y1, _), place(Svg, 2, _, Y2, _), place(Svg, 3, _, Y3, _),
    Y1 < Y2, Y2 < Y3.
test(a_component_has_a_frame) :-
    drawn([node(1, "p/1", ok), node(2, "q/1", ok), node(3, "r/1", ok)], [1-[2], 2-[1, 3]], Svg),
    xpath(Svg, //rect(@class=frame, @x(number)=X, @y(number)=Y, @width(number)=W, @height(number)=H), _),
    !,
    forall(member(Id, [1, 2]), ( place(Svg, Id, Px, Py, Pw), X < Px, Y < Py, Px + Pw < X + W, Py + 26 < Y + H )),
    place(Svg, 3, _, Y3, _),
    Y3 > Y + H.
test(nodes_are_apart_and_inside) :-
    findall(node(Id, "a_rather_long_name/12", none), between(1, 60, Id), Nodes),
    findall(Id-[Next], ( between(1, 40, Id), Next is 41 + Id mod 7 ), Edges),
    drawn(Nodes, Edges, Svg),
    Svg = element(_, Attributes, _),
    memberchk(width=Width0, Attributes), memberchk(height=Height0, Attributes),
    maplist(atom_number, [Width0, Height0], [Width, Height]),
    findall(at(X, Y, W), ( between(1, 60, Id), place(Svg, Id, X, Y, W) ), Places),
    length(Places, 60),
    forall(member(at(X, Y, W), Places), ( X >= 0, Y >= 0, X + W =< Width, Y + 26 =< Height )),
    forall(( select(at(X, Y, W), Places, Others), member(at(X1, Y1, _), Others) ),
           ( abs(Y - Y1) >= 26 ; X1 >= X + W ; X1 < X )).
test(too_many, [fail]) :-
    findall(node(Id, "p/1", ok), between(1, 301, Id), Nodes),
    drawing(Nodes, [], _).

:- end_tests(drawing).


:- begin_tests(source_text).

spans(Text, Spans) :-
    text_lines(Text, Lines),
    maplist(as_strings, Lines, Spans).

as_strings(Spans0, Spans) :-
    findall(Class-String, ( member(span(Class, Codes), Spans0), string_codes(String, Codes) ), Spans).

test(classes, Spans == [[plain-"p(", variable-"X", plain-", ", 'number-token'-"12", plain-", ", string-"'a%'",
                         plain-"). ", comment-"% c"]]) :-
    spans("p(X, 12, 'a%'). % c\n", Spans).
test(character, Spans == [['number-token'-"0'%", plain-" ", 'number-token'-"0'''", plain-" ",
                           'number-token'-"0'\\n"]]) :-
    spans("0'% 0''' 0'\\n\n", Spans).
test(long_comment, Spans == [[plain-"a ", comment-"/* b"], [comment-"c */", plain-" d"]]) :-
    spans("a /* b\nc */ d\n", Spans).
test(quote_in_quotes, Spans == [[string-"\"a\\\"b\"\"c\"", plain-"."]]) :-
    spans("\"a\\\"b\"\"c\".\n", Spans).
test(returns, Spans == [[plain-"a."], [plain-"b."]]) :-
    spans("a.\r\nb.\r\n", Spans).
test(no_end_of_line, Spans == [[plain-"a."]]) :-
    spans("a.", Spans).

ends(Line, Column, Call) :-
    string_codes(Line, Codes),
    call_end(Codes, Column, End),
    Before is Column - 1,
    Length is End - Column,
    sub_string(Line, Before, Length, _, Call).

test(call, Call == "q(X, f(Y))") :-
    ends("    q(X, f(Y)), r.", 5, Call).
test(call_with_quotes, Call == "q(')', \"(\", 0'))") :-
    ends("q(')', \"(\", 0')), r.", 1, Call).
test(atom, Call == "repeat") :-
    ends("a :- repeat, b.", 6, Call).
test(call_that_goes_on_in_the_next_line, Call == "q(X,") :-
    ends("    q(X,", 5, Call).
test(quoted_name, Call == "'a b'(c)") :-
    ends("'a b'(c).", 1, Call).

:- end_tests(source_text).
