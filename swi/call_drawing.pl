:- module(call_drawing,
          [ drawing/3                   % +Nodes, +Edges, -Drawing
          ]).

/** <module> A graph of calls as a drawing

Callers stand above what they call, in layers. Predicates that call each other are
a component, which stands in one layer, in a frame.
*/

:- use_module(library(apply)).
:- use_module(library(assoc)).
:- use_module(library(lists)).
:- use_module(components).
:- use_module(source_text, [escaped_codes/2]).

most_nodes(300).
row_width(1080).
node_height(26).
character_width(7.3).
gap(28).
row_gap(24).
frame_margin(18).
layer_gap(44).
margin(16).

%!  drawing(+Nodes, +Edges, -Drawing:string) is semidet.
%
%   Nodes is a list of node(Id, Label, Class), and Edges one of Id-Ids. Drawing is
%   an element `svg` in which a node is a link to `#pId`. Fails where there are
%   none, or too many.

drawing(Nodes, Edges, Drawing) :-
    Nodes = [_|_],
    length(Nodes, Count),
    most_nodes(Most),
    Count =< Most,
    findall(Id-Callees, ( member(node(Id, _, _), Nodes), callees(Id, Edges, Callees) ), Pairs0),
    keysort(Pairs0, Pairs),
    list_to_assoc(Pairs, Graph),
    components(Graph, Components0),
    reverse(Components0, Components),            % callers first
    layers(Components, Graph, Layers),
    findall(Id-node(Id, Label, Class), member(node(Id, Label, Class), Nodes), ById0),
    list_to_assoc(ById0, ById),
    placed_layers(Layers, Graph, ById, Placed, Frames, Width, Height),
    with_output_to(string(Drawing), draw(Placed, Frames, Graph, Width, Height)).

callees(Id, Edges, Callees) :-
    (   memberchk(Id-Callees0, Edges)
    ->  sort(Callees0, Callees)
    ;   Callees = []
    ).


%   layers(+Components, +Graph, -Layers): a component is one layer below the
%   lowest that calls it. Those that stand alone come last.

layers(Components, Graph, Layers) :-
    foldl(component_layer(Graph), Components, [], Numbered0),
    reverse(Numbered0, Numbered),
    partition(stands_alone(Graph, Components), Numbered, Alone, Connected),
    findall(Layer-Component, member(Layer-Component, Connected), Pairs0),
    keysort(Pairs0, Pairs),
    grouped(Pairs, Layers0),
    findall(Component, member(_-Component, Alone), AloneComponents),
    (   AloneComponents == []
    ->  Layers = Layers0
    ;   append(Layers0, [AloneComponents], Layers)
    ).

grouped([], []).
grouped([Layer-Component|Pairs], [[Component|Components]|Groups]) :-
    same_layer(Pairs, Layer, Components, Rest),
    grouped(Rest, Groups).

same_layer([Layer-Component|Pairs], Layer, [Component|Components], Rest) :-
    !,
    same_layer(Pairs, Layer, Components, Rest).
same_layer(Rest, _, [], Rest).

component_layer(Graph, Component0, Numbered, [Layer-Component|Numbered]) :-
    sort(Component0, Component),
    findall(Below,
            ( member(Number-Caller, Numbered),
              calls_into(Caller, Component, Graph),
              Below is Number + 1 ),
            Layers),
    max_list([0|Layers], Layer).

calls_into(Caller, Component, Graph) :-
    member(Id, Caller),
    get_assoc(Id, Graph, Callees),
    member(Callee, Callees),
    memberchk(Callee, Component),
    !.

stands_alone(Graph, Components, _-Component) :-
    \+ ( member(Id, Component),
         get_assoc(Id, Graph, Callees),
         member(Callee, Callees),
         \+ memberchk(Callee, Component) ),
    \+ ( member(Other0, Components),
         sort(Other0, Other),
         Other \== Component,
         calls_into(Other, Component, Graph) ).


%   placed_layers(+Layers, +Graph, +ById, -Placed, -Frames, -Width, -Height):
%   Placed has Id-at(X, Y, W, Node), with the left upper corner of each node;
%   Frames has frame(X, Y, W, H).

placed_layers(Layers, Graph, ById, Placed, Frames, Width, Height) :-
    margin(Margin),
    row_width(RowWidth),
    maplist(layer_rows(ById, RowWidth), Layers, LayerRows0),
    rows_width(LayerRows0, Inner),
    empty_assoc(Empty),
    place_layers(LayerRows0, Graph, Inner, Margin, Empty, Placed0, [], Frames, Bottom),
    assoc_to_list(Placed0, Placed),
    Width is Inner + 2 * Margin,
    Height is Bottom + Margin.

%   A row is a list of block(W, H, Nodes): each node is inner(Dx, Dy, W, Node).

layer_rows(ById, RowWidth, Components, Blocks-RowWidth) :-
    maplist(component_block(ById), Components, Blocks).

component_block(ById, [Id], block(W, H, [inner(0, 0, W, Node)], none)) :-
    !,
    get_assoc(Id, ById, Node),
    node_width(Node, W),
    node_height(H).
component_block(ById, Ids, block(Width, Height, Inner, frame)) :-
    findall(Node, ( member(Id, Ids), get_assoc(Id, ById, Node) ), Nodes),
    in_threes(Nodes, Rows),
    frame_margin(Margin),
    frame_rows(Rows, Margin, 0, Inner, [], Widest, Bottom),
    row_gap(RowGap),
    Width is Widest + Margin,
    Height is Bottom - RowGap + Margin.

in_threes([], []).
in_threes([A, B, C|Nodes], [[A, B, C]|Rows]) :-
    !,
    in_threes(Nodes, Rows).
in_threes(Nodes, [Nodes]).

frame_rows([], Y, Widest, Inner, Inner, Widest, Y).
frame_rows([Row|Rows], Y, Widest0, Inner, Rest, Widest, Bottom) :-
    frame_margin(Margin),
    frame_row(Row, Margin, Y, Inner, More, End),
    node_height(H),
    row_gap(RowGap),
    Next is Y + H + RowGap,
    gap(Gap),
    Widest1 is max(Widest0, End - Gap),
    frame_rows(Rows, Next, Widest1, More, Rest, Widest, Bottom).

frame_row([], X, _, Inner, Inner, X).
frame_row([Node|Nodes], X, Y, [inner(X, Y, W, Node)|Inner], Rest, End) :-
    node_width(Node, W),
    gap(Gap),
    Next is X + W + Gap,
    frame_row(Nodes, Next, Y, Inner, Rest, End).

node_width(node(_, Label, _), Width) :-
    string_length(Label, Length),
    character_width(Each),
    Width is round(Length * Each) + 20.

%   rows_width(+Layers, -Width): no row is wider, whatever the order of its
%   blocks will be.

rows_width(Layers, Width) :-
    findall(RowWidth,
            ( member(Blocks-Most, Layers),
              (   row_length(Blocks, Whole),
                  RowWidth is min(Whole, Most)
              ;   member(block(RowWidth, _, _, _), Blocks)
              ) ),
            Widths),
    max_list(Widths, Width).

row_length(Blocks, Width) :-
    gap(Gap),
    foldl(block_width(Gap), Blocks, 0, Width0),
    Width is Width0 - Gap.

block_width(Gap, block(W, _, _, _), Width0, Width) :-
    Width is Width0 + W + Gap.

split_rows([], _, []).
split_rows([Block|Blocks], Most, [[Block|Row]|Rows]) :-
    Block = block(W, _, _, _),
    fill_row(Blocks, Most, W, Row, Rest),
    split_rows(Rest, Most, Rows).

fill_row([Block|Blocks], Most, Width0, [Block|Row], Rest) :-
    Block = block(W, _, _, _),
    gap(Gap),
    Width is Width0 + Gap + W,
    Width =< Most,
    !,
    fill_row(Blocks, Most, Width, Row, Rest).
fill_row(Rest, _, _, [], Rest).

place_layers([], _, _, Y, Placed, Placed, Frames, Frames, Bottom) :-
    layer_gap(Gap),
    Bottom is Y - Gap.
place_layers([Blocks0-Most|Layers], Graph, Inner, Y, Placed0, Placed, Frames0, Frames, Bottom) :-
    below_callers(Blocks0, Graph, Placed0, Blocks),
    split_rows(Blocks, Most, Rows),
    place_rows(Rows, Inner, Y, Placed0, Placed1, Frames0, Frames1, Y1),
    layer_gap(Gap),
    row_gap(RowGap),
    Next is Y1 - RowGap + Gap,
    place_layers(Layers, Graph, Inner, Next, Placed1, Placed, Frames1, Frames, Bottom).

%   Blocks are in the order of the middles of their callers.

below_callers(Blocks0, Graph, Placed, Blocks) :-
    assoc_to_list(Placed, Pairs),
    findall(Middle-Block, ( member(Block, Blocks0), callers_middle(Block, Graph, Pairs, Middle) ), Keyed0),
    keysort(Keyed0, Keyed),
    findall(Block, member(_-Block, Keyed), Blocks).

callers_middle(block(_, _, Inner, _), Graph, Pairs, Middle) :-
    findall(X,
            ( member(inner(_, _, _, node(Id, _, _)), Inner),
              member(Caller-at(Left, _, W, _), Pairs),
              get_assoc(Caller, Graph, Callees),
              memberchk(Id, Callees),
              X is Left + W / 2 ),
            Xs),
    (   Xs == []
    ->  Middle = 0
    ;   sum_list(Xs, Sum),
        length(Xs, Count),
        Middle is Sum / Count
    ).

place_rows([], _, Y, Placed, Placed, Frames, Frames, Y).
place_rows([Row|Rows], Inner, Y, Placed0, Placed, Frames0, Frames, Bottom) :-
    row_length(Row, Width),
    margin(Margin),
    X is Margin + (Inner - Width) // 2,
    findall(H, member(block(_, H, _, _), Row), Heights),
    max_list(Heights, Highest),
    place_blocks(Row, X, Y, Highest, Placed0, Placed1, Frames0, Frames1),
    row_gap(RowGap),
    Next is Y + Highest + RowGap,
    place_rows(Rows, Inner, Next, Placed1, Placed, Frames1, Frames, Bottom).

place_blocks([], _, _, _, Placed, Placed, Frames, Frames).
place_blocks([block(W, H, Inner, Kind)|Blocks], X, Y, Highest, Placed0, Placed, Frames0, Frames) :-
    Top is Y + (Highest - H) // 2,
    foldl(place_node(X, Top), Inner, Placed0, Placed1),
    (   Kind == frame
    ->  Frames1 = [frame(X, Top, W, H)|Frames0]
    ;   Frames1 = Frames0
    ),
    gap(Gap),
    Next is X + W + Gap,
    place_blocks(Blocks, Next, Y, Highest, Placed1, Placed, Frames1, Frames).

place_node(X, Y, inner(Dx, Dy, W, Node), Placed0, Placed) :-
    Node = node(Id, _, _),
    Left is X + Dx,
    Top is Y + Dy,
    put_assoc(Id, Placed0, at(Left, Top, W, Node), Placed).


%   draw(+Placed, +Frames, +Graph, +Width, +Height): to the current output.

draw(Placed, Frames, Graph, Width, Height) :-
    list_to_assoc(Placed, Places),
    format("<svg xmlns=\"http://www.w3.org/2000/svg\" width=\"~d\" height=\"~d\" viewBox=\"0 0 ~d ~d\" role=\"img\" \
aria-label=\"The calls of the predicates\">~n", [Width, Height, Width, Height]),
    format("<defs><marker id=\"tip\" viewBox=\"0 0 8 8\" refX=\"7\" refY=\"4\" markerWidth=\"7\" markerHeight=\"7\" \
orient=\"auto\"><path class=\"tip\" d=\"M0 0.5 L8 4 L0 7.5 z\"/></marker></defs>~n"),
    forall(member(frame(X, Y, W, H), Frames),
           format("<rect class=\"frame\" x=\"~d\" y=\"~d\" width=\"~d\" height=\"~d\" rx=\"10\"/>~n", [X, Y, W, H])),
    forall(( member(Id-From, Placed), get_assoc(Id, Graph, Callees), member(Callee, Callees),
             get_assoc(Callee, Places, To) ),
           edge(From, To)),
    forall(member(_-At, Placed), node(At)),
    format("</svg>~n").

node(at(X, Y, W, node(Id, Label, Class))) :-
    node_height(H),
    Middle is X + W // 2,
    Base is Y + 17,
    string_codes(Label, Codes),
    escaped_codes(Codes, Escaped),
    format("<a href=\"#p~d\"><g class=\"node ~w\"><rect x=\"~d\" y=\"~d\" width=\"~d\" height=\"~d\" rx=\"6\"/>\
<text x=\"~d\" y=\"~d\">~s</text></g></a>~n", [Id, Class, X, Y, W, H, Middle, Base, Escaped]).

edge(From, To) :-
    path(From, To, Path),
    format("<path class=\"edge\" d=\"~s\" marker-end=\"url(#tip)\"/>~n", [Path]).

%   path(+From, +To, -Path): down, up, to the right below a row, to the left above
%   it, or around one's own corner.

path(at(X, Y, W, Node), at(X, Y, W, Node), Path) :-
    !,
    Right is X + W,
    Start is Y + 8,
    format(string(Path), "M~d ~d c16 -12 16 22 1 10", [Right, Start]).
path(at(X1, Y1, W1, _), at(X2, Y2, W2, _), Path) :-
    node_height(H),
    From is X1 + W1 // 2,
    To is X2 + W2 // 2,
    (   Y2 > Y1
    ->  Start is Y1 + H,
        Bend is (Y2 - Start) // 2,
        A is Start + Bend,
        B is Y2 - Bend,
        format(string(Path), "M~d ~d C~d ~d ~d ~d ~d ~d", [From, Start, From, A, To, B, To, Y2])
    ;   Y2 < Y1
    ->  End is Y2 + H,
        Bend is (Y1 - End) // 2,
        A is Y1 - Bend,
        B is End + Bend,
        Start is From + 10,
        Finish is To + 10,
        format(string(Path), "M~d ~d C~d ~d ~d ~d ~d ~d", [Start, Y1, Start, A, Finish, B, Finish, End])
    ;   X1 < X2
    ->  Bottom is Y1 + H,
        Low is Bottom + 14,
        format(string(Path), "M~d ~d C~d ~d ~d ~d ~d ~d", [From, Bottom, From, Low, To, Low, To, Bottom])
    ;   High is Y1 - 14,
        format(string(Path), "M~d ~d C~d ~d ~d ~d ~d ~d", [From, Y1, From, High, To, High, To, Y1])
    ).
