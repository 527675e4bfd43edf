:- module(patterns,
          [ wanted_patterns/2,          % +Known, -Wanted
            not_shown/4                 % +Key, +Modes, +Known, -Places
          ]).

/** <module> Patterns of calls that are wanted, and not shown to end

A predicate may have modes, and none for a pattern that its PlDoc comment
gives, or by which the file itself calls it.
*/

:- use_module(library(apply)).
:- use_module(library(assoc)).
:- use_module(library(lists)).
:- use_module(library(pairs)).
:- use_module(asking).
:- use_module(places).
:- use_module(reasons).

%!  wanted_patterns(+Known:dict, -Wanted) is det.
%
%   Wanted is an assoc of each key's list of wanted(Pattern, By), where By is
%   comment(Path, Line), or call(Path, Line, Column).

wanted_patterns(Known, Wanted) :-
    lacking_calls(Known, Lacking),
    findall((Module:PI)-wanted(Pattern, comment(Path, Line)),
            ( member(Source, Known.project.sources),
              _{path:Path, module:Module} :< Source,
              comment_patterns(Path, Comments),
              member(PI-pattern(Pattern, Line), Comments) ),
            Pairs0),
    findall(Key-wanted(Pattern, call(File, Line, Column)),
            member(Key-call(Pattern, File, Line, Column), Lacking),
            Pairs1),
    append(Pairs0, Pairs1, Pairs2),
    keysort(Pairs2, Pairs),
    group_pairs_by_key(Pairs, Groups),
    list_to_assoc(Groups, Wanted).

%!  not_shown(+Key, +Modes, +Known:dict, -Places) is det.
%
%   Places are place(Path, Line, Column, Text), one for each pattern that no
%   member of Modes meets, where Modes has some. Only arguments that are ground
%   count as known.

not_shown(_, [], _, []) :- !.
not_shown(Key, Modes, Known, Places) :-
    (   get_assoc(Key, Known.wanted, All)
    ->  exclude(is_met(Modes), All, Open0),
        sort(Open0, Open1),
        first_of_each(Open1, Open),
        maplist(not_shown_place(Key, Known), Open, Places)
    ;   Places = []
    ).

is_met(Modes, wanted(Pattern, _)) :-
    member(Mode, Modes),
    meets(Pattern, Mode),
    !.

first_of_each([], []).
first_of_each([wanted(Pattern, By)|Wanted], [wanted(Pattern, By)|Firsts]) :-
    exclude(has_pattern(Pattern), Wanted, Others),
    first_of_each(Others, Firsts).

has_pattern(Pattern, wanted(Pattern, _)).

not_shown_place(Key, Known, wanted(Pattern, By), place(Path, Line, Column, Text)) :-
    Key = _:Name/_,
    Goal =.. [Name|Pattern],
    wanted_by(By, Path, Line, Column, Where),
    pattern_need(Key, Pattern, Known.reasoning, need(Need, _)),
    format(string(Text), "~q, as ~w ~d:~d, is not shown to end: ~s", [Goal, Where, Line, Column, Need]).

wanted_by(comment(Path, Line), Path, Line, 1, "in the comment at").
wanted_by(call(Path, Line, Column), Path, Line, Column, "called at").
