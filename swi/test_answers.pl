:- encoding(utf8).

% Tests of what cti-file says, and how: all modes that cti finds, reasons, questions, and texts and words that are wrong. Run them at the
% top of the repository, once bin/cti is built:
%
%     CTI=bin/cti swipl -g run_tests -t halt swi/test_answers.pl

:- use_module(cti_file).
:- use_module(library(apply)).
:- use_module(library(filesex)).
:- use_module(library(gensym)).
:- use_module(library(lists)).
:- use_module(library(option)).
:- use_module(library(plunit)).
:- use_module(library(process)).
:- use_module(library(readutil)).

%   with_file(+Text, -File, :Goal): Goal with a file of this text.

:- meta_predicate with_file(+, -, 0).

with_file(Text, File, Goal) :-
    with_file(Text, utf8, File, Goal).

:- meta_predicate with_file(+, +, -, 0).

with_file(Text, Encoding, File, Goal) :-
    tmp_file(real, Base),
    file_name_extension(Base, pl, File),
    setup_call_cleanup(
        setup_call_cleanup(open(File, write, Out, [encoding(Encoding), bom(true)]), write(Out, Text), close(Out)),
        Goal,
        delete_file(File)).

%   modes(+Text, +PI, -Modes): Modes is a list of By-Arguments.

modes(Text, PI, Modes) :-
    modes(Text, PI, Modes, []).

modes(Text, PI, Modes, Options) :-
    with_file(Text, File, cti_file_answer(File, Answer, Options)),
    predicate_of(Answer, PI, Predicate),
    findall(By-Arguments, member(mode{arguments:Arguments, by:By}, Predicate.modes), Modes).

predicate_of(Answer, PI, Predicate) :-
    member(Predicate, Answer.predicates),
    Predicate.name == PI,
    !.

reason_of(Text, PI, Reason, Sentence, Places) :-
    with_file(Text, File, cti_file_answer(File, Answer, [])),
    predicate_of(Answer, PI, Predicate),
    _{modes:[], reason:Reason, reason_text:Sentence, reason_places:Places0} :< Predicate,
    findall(Line-Column, member(place(_, Line, Column, _), Places0), Places).

has_text(Text, Part) :-
    once(sub_string(Text, _, _, _, Part)).

%   ends(+Text, :Goal, -Ends): whether all answers of Goal are found in
%   SWI-Prolog, in the file of this text, within a limit.

ends(Text, Goal, Ends) :-
    gensym(loaded, Module),
    with_file(Text, File, load_files(Module:File, [silent(true)])),
    call_with_inference_limit(forall(Module:Goal, true), 100_000, Result),
    (   Result == inference_limit_exceeded
    ->  Ends = no
    ;   Ends = yes
    ).

%   Programs of a first course, for which the size of terms alone says too
%   little.

text(grammar, "\
expr(X) --> term(T), expr_rest(T, X).
expr_rest(A, X) --> \"+\", !, term(T), expr_rest(A + T, X).
expr_rest(A, A) --> [].
term(X) --> factor(F), term_rest(F, X).
term_rest(A, X) --> \"*\", !, factor(F), term_rest(A * F, X).
term_rest(A, A) --> [].
factor(E) --> \"(\", !, expr(E), \")\".
factor(N) --> digit(D), { number_codes(N, [D]) }.
digit(D) --> [D], { code_type(D, digit) }.
").
text(zebra, "\
:- use_module(library(lists)).
right_of(X, Y, [Y, X|_]).
right_of(X, Y, [_|T]) :- right_of(X, Y, T).
next_to(X, Y, L) :- right_of(X, Y, L).
next_to(X, Y, L) :- right_of(Y, X, L).
zebra(Owner) :-
    Hs = [h(_, norwegian, _, _, _), _, h(_, _, _, milk, _), _, _],
    member(h(red, english, _, _, _), Hs),
    member(h(_, spanish, dog, _, _), Hs),
    member(h(green, _, _, coffee, _), Hs),
    right_of(h(green, _, _, _, _), h(ivory, _, _, _, _), Hs),
    next_to(h(_, norwegian, _, _, _), h(blue, _, _, _, _), Hs),
    member(h(_, Owner, zebra, _, _), Hs).
").
text(sort, "\
split([], [], []).
split([X], [X], []).
split([X, Y|L], [X|A], [Y|B]) :- split(L, A, B).
merge([], L, L) :- !.
merge(L, [], L) :- !.
merge([X|Xs], [Y|Ys], [X|Zs]) :- X @=< Y, !, merge(Xs, [Y|Ys], Zs).
merge([X|Xs], [Y|Ys], [Y|Zs]) :- merge([X|Xs], Ys, Zs).
msort2([], []).
msort2([X], [X]).
msort2([X, Y|L], S) :- split(L, A, B), msort2([X|A], SA), msort2([Y|B], SB), merge(SA, SB, S).
").
text(pack, "\
:- module(pack, [pack/3]).

pack(0, N, s(N)).
pack(s(M), 0, R) :- pack(M, s(0), R).
pack(s(M), s(N), R) :- pack(s(M), N, R1), pack(M, R1, R).
").
text(append, "\
app([], L, L).
app([H|T], L, [H|R]) :- app(T, L, R).
").

:- begin_tests(all_that_is_found).

test(grammar, Modes == [length-[2]]) :-
    text(grammar, Text),
    modes(Text, expr/3, Modes).
test(grammar_ends, Ends == yes) :-
    text(grammar, Text),
    ends(Text, catch(expr(_, [_, _, _, _], _), _, fail), Ends).
test(zebra, Modes == [ground-[]]) :-
    text(zebra, Text),
    modes(Text, zebra/1, Modes).
test(zebra_ends, Ends == yes) :-
    text(zebra, Text),
    ends(Text, zebra(_), Ends).
test(sort, Modes == [length-[1]]) :-
    text(sort, Text),
    modes(Text, msort2/2, Modes).
test(sort_ends, Ends == yes) :-
    text(sort, Text),
    ends(Text, msort2([_, _, _], _), Ends).
test(lists_of_mappings, Modes == [ground-[1, 2]]) :-
    text(pack, Text),
    modes(Text, pack/3, Modes).
test(length_is_less_than_ground, Modes == [length-[1], length-[3]]) :-
    text(append, Text),
    modes(Text, app/3, Modes).
test(both_kinds, Modes == [ground-[2], length-[1]]) :-
    modes("p([], _).\np([_|T], s(N)) :- p(T, N).\n", p/2, Modes).
test(ground_sets_of_both_kinds, Sets == [[1], [3]]) :-
    text(append, Text),
    with_file(Text, File, cti_file_modes(File, [app/3-Sets], [])).
test(only_terms, Modes == []) :-
    text(grammar, Text),
    modes(Text, expr/3, Modes, [norm(term)]).
test(only_lists, Modes == []) :-
    modes("even(0).\neven(s(s(N))) :- even(N).\n", even/1, Modes, [norm(list)]).
test(finders, FoundBy == [lists_of_mappings]) :-
    text(pack, Text),
    with_file(Text, File, cti_file_answer(File, Answer, [])),
    predicate_of(Answer, pack/3, Predicate),
    FoundBy = Predicate.found_by.
test(certificates, Certificates == [term_size-true, list_size-true, lists_of_mappings-false]) :-
    text(append, Text),
    with_file(Text, File, cti_file_answer(File, Answer, [])),
    findall(Kind-Checked, member(certificate{kind:Kind, facts:_, checked:Checked}, Answer.certificates), Certificates).
test(no_more_than_needed, Kinds == [term_size]) :-
    with_file("p(a).\nq(X) :- p(X).\n", File, cti_file_answer(File, Answer, [])),
    findall(Kind, member(certificate{kind:Kind, facts:_, checked:_}, Answer.certificates), Kinds).
test(kept, Extensions == [cert, 'list_size.cert', 'lists_of_mappings.cert', 'pure.pl']) :-
    tmp_file(kept, Directory),
    make_directory(Directory),
    text(append, Text),
    with_file(Text, File, cti_file_modes(File, _, _, [keep(Directory)])),
    directory_files(Directory, Files0),
    subtract(Files0, [., ..], Files),
    findall(Extension,
            ( member(Name, Files), sub_atom(Name, Before, 1, _, .), Next is Before + 1, sub_atom(Name, Next, _, 0, Extension) ),
            Extensions0),
    sort(Extensions0, Extensions1),
    exclude([E]>>member(E, [pl]), Extensions1, Extensions),
    delete_directory_and_contents(Directory).
test(place, Line-Column-Exported == 3-2-true) :-
    with_file(":- module(m, [p/1]).\n\n p(a).\nq(b).\n", File, cti_file_answer(File, Answer, [])),
    predicate_of(Answer, p/1, Predicate),
    _{line:Line, column:Column, exported:Exported} :< Predicate.

:- end_tests(all_that_is_found).

% A list whose length is known may have any elements; a query of this group has
% a list that ends in a variable, or is one, and does not end.

:- begin_tests(by_length).

%   open_query(Text, PI, Goal, Places): Goal does not end; the arguments at Places
%   are variables, or lists that end in one.

open_query("p(L) :- length(L, _), fail.\n", p/1, p([_|_]), [1]).
open_query(":- use_module(library(lists)).\np(L) :- append(L, [a], _), fail.\n", p/1, p([a|_]), [1]).
open_query(":- use_module(library(lists)).\np(L) :- member(X, L), X == none.\n", p/1, p([a|_]), [1]).
open_query("s --> [].\ns --> [_], s.\np(L) :- s(L, _), fail.\n", p/1, p([a|_]), [1]).
open_query(":- use_module(library(lists)).\np(L) :- nth0(_, L, X), X == none.\n", p/1, p([_|_]), [1]).
open_query("p([H|T]) :- q([H|T]).\nq(L) :- q2(L).\nq2([_|T]) :- q2(T).\n", p/1, p([_|_]), [1]).

test(does_not_end, [forall(open_query(Text, _, Goal, _)), Ends == no]) :-
    copy_term(Goal, Query),
    ends(Text, Query, Ends).
test(has_no_mode_without, [forall(open_query(Text, PI, _, Places)), true]) :-
    modes(Text, PI, Modes),
    forall(member(_-Arguments, Modes), ( member(I, Places), memberchk(I, Arguments) )).

%   What a text is made of, in a query with lists of variables as long as these.

closed_query("p(L) :- length(L, _), fail.\n", p/1, p([_, _])).
closed_query(":- use_module(library(lists)).\np(L) :- msort(L, M), append(M, [a], _), fail.\n", p/1, p([_, _])).
closed_query(":- use_module(library(lists)).\np(L) :- nth0(_, L, X), X == none.\n", p/1, p([_, _])).
closed_query("p(L) :- atom_codes(_, L), q(L).\nq([]).\nq([_|T]) :- q(T).\n", p/1, p([0'a, 0'b])).
closed_query("p(L) :- q(L), string(L).\nq([]).\nq([_|T]) :- q(T).\n", p/1, p("text")).

test(ends, [forall(closed_query(Text, _, Goal)), Ends == yes]) :-
    ends(Text, Goal, Ends).
test(has_a_mode, [forall(closed_query(Text, PI, _)), Modes == [length-[1]]]) :-
    modes(Text, PI, Modes).

%   A result that is a list of unknown length is none whose length is known.

test(result_of_findall, Modes == []) :-
    modes("p(X) :- findall(Y, Y = X, L), q(L).\nq([]).\nq([_|T]) :- q(T).\n", p/1, Modes).
test(more_than_twelve_arguments, Modes == [ground-[12, 13, 14]]) :-
    modes("p(_, _, _, _, _, _, _, _, _, _, _, q([]), _, _).\n\
p(A, B, C, D, E, F, G, H, I, J, K, q([_|T]), L, M) :- p(A, B, C, D, E, F, G, H, I, J, K, q(T), L, M).\n", p/14, Modes).
test(cell_that_is_none_of_a_list, Text == "'user:p'('dot of a term'(c,_))") :-
    pure_program:pure_query([(user:p/1)-('user:p'/1)], user:p/1, [Term], Text0),
    compound_name_arguments(Term, '.', [a, _]),
    pure_program:pure_query([(user:p/1)-('user:p'/1)], user:p/1, [Term], Text),
    Text0 == "'user:p'(_)".

:- end_tests(by_length).

% Why there is no mode: the calls at their lines and columns.

:- begin_tests(reasons).

%   Of two calls in one line each one is named: the sum of the sizes stays, and
%   each of the arguments gets larger at one of them.

test(two_calls_in_one_line, Reason-Places == nothing_falls([call(3, p/2), call(3, p/2)])-[3-18, 3-33]) :-
    reason_of("p(0, _).\np(_, 0).\np(s(M), s(N)) :- p(M, s(s(N))), p(s(s(M)), N).\n", p/2, Reason, Text, Places),
    has_text(Text, "no single weighted sum").
test(one_call, Reason-Places == nothing_falls([call(2, p/1)])-[2-18]) :-
    reason_of("p(0).\np(s(X)) :- q(X), p(Y), q(Y).\nq(_).\n", p/1, Reason, Text, Places),
    has_text(Text, "no known size of its arguments gets smaller at the call of p/1 at 2:18").
test(need, Reason-Places == needs([call(1, p/1, [[1]])])-[1-18]) :-
    reason_of("r(X) :- s(X, Y), p(Y).\ns(_, _).\np([_|T]) :- p(T).\np([]).\n", r/1, Reason, Text, Places),
    has_text(Text, "p/1 at 1:18 needs argument 1 known by length, and `Y` is not sure to be").
test(call_in_a_disjunction, Reason-Places == calls(2, p/1)-[3-7]) :-
    reason_of("p(X) :- p(X).\nq(X) :- ( a = b\n    ; p(X) ).\n", q/1, Reason0, _, Places),
    (   Reason0 == calls(3, p/1)
    ->  Reason = calls(2, p/1)
    ;   Reason = Reason0
    ).
test(grammar_rule, Places == [2-15]) :-
    reason_of("s --> [].\ns --> [a], s, s.\ne(X) --> [X], e(X).\ne(X) --> e(X).\n", e/3, _, _, [Place|_]),
    (   Place == 4-10
    ->  Places = [2-15]
    ;   Places = [Place]
    ).

%   The library's clauses are not the file's.

test(recursion_through_a_library, Lines == [3]) :-
    reason_of("\
:- use_module(library(apply)).
simp(E, E) :- atomic(E), !.
simp(E0, E) :- E0 =.. [Op|As0], maplist(simp, As0, As), E =.. [Op|As].
", simp/2, nothing_falls(Calls), Text, _),
    findall(Line, member(call(Line, _), Calls), Lines),
    has_text(Text, "apply:maplist/3 at 3:33 calls it again"),
    has_text(Text, "nothing is known of what (=..)/2 at 3:16 gives for `As0`").
test(lambda_without_its_global_variables, Places == [7-29]) :-
    rules("[F]", Text),
    reason_of(Text, fires/2, calls(7, apply:maplist/2), Sentence, Places),
    has_text(Sentence, "calls holds/2, which needs argument 2 ground"),
    has_text(Sentence, "`S` is a new variable each time: {S}/[..]>>.. shares it").
test(test_that_is_a_search, Places == [2-18]) :-
    reason_of("q(_, _).\np(X) :- q(X, Y), memberchk(a, Y).\n", p/1, needs([call(2, memberchk/2, [[2]])]), Text, Places),
    has_text(Text, "memberchk/2 at 2:18 needs argument 2 known by length, and `Y` is not sure to be").
test(lambda_with_its_global_variables, Sets == [[1]]) :-
    rules("{S}/[F]", Text),
    with_file(Text, File, cti_file_modes(File, Modes, _)),
    memberchk(fires/2-Sets, Modes).

rules(Parameters, Text) :-
    format(string(Text), "\
:- use_module(library(lists)).
:- use_module(library(apply)).

rule(a, [b, c]).
rule(b, []).
holds(F, S) :- memberchk(F, S).
fires(S, H) :- rule(H, Fs), maplist(~s>>holds(F, S), Fs), \\+ holds(H, S).
", [Parameters]).

%   cti writes twenty notes; the others are from the certificate.

test(more_than_twenty, Lines == Expected) :-
    numlist(1, 30, Numbers),
    findall(Line, ( member(N, Numbers), format(string(Line), "p~d(X) :- q(X), p~d(X).\n", [N, N]) ), Texts),
    atomics_to_string(["q(_).\n"|Texts], Text),
    with_file(Text, File, cti_file_answer(File, Answer, [])),
    findall(Line-Column,
            ( member(Predicate, Answer.predicates), Predicate.modes == [], member(place(_, Line, Column, _), Predicate.reason_places) ),
            Lines),
    findall(Line-Column, ( member(N, Numbers), Line is N + 1, ( N < 10 -> Column = 16 ; Column = 17 ) ), Expected).

:- end_tests(reasons).

%   A pattern that is wanted, of a predicate that has modes.

:- begin_tests(patterns).

wanted(Text, PI, Wanted) :-
    with_file(Text, File, cti_file_answer(File, Answer, [])),
    predicate_of(Answer, PI, Predicate),
    findall(Line-Said, member(place(_, Line, _, Said), Predicate.not_shown), Wanted).

test(comment, Line == 1) :-
    text(append, Append),
    string_concat("%!  app(?A, +B, -C) is nondet.\n%!  app(+A:list, +B, -C) is det.\n", Append, Text),
    wanted(Text, app/3, [Line-Said]),
    has_text(Said, "app(f,b,f), as in the comment at 1:1, is not shown to end").
test(comment_of_a_grammar, Line == 1) :-
    wanted("%!  e(-Tree)// is det.\ne(plus(A, B)) --> e(A), \"+\", t(B).\ne(A) --> t(A).\nt(x) --> \"x\".\n", e/3, [Line-Said]),
    has_text(Said, "e(f,b,f)").
test(comment_that_is_met, Wanted == []) :-
    text(append, Append),
    string_concat("%!  app(+A, +B, -C) is det.\n%   app(-A, -B, -C)\n", Append, Text),
    wanted(Text, app/3, Wanted).
test(call, Line == 3) :-
    text(append, Append),
    string_concat(Append, "two(X, Y) :- app(_, X, Z), Z = Y.\n", Text),
    wanted(Text, app/3, [Line-Said]),
    has_text(Said, "app(f,b,f), as called at 3:14").
test(call_that_is_met, Wanted == []) :-
    text(append, Append),
    string_concat(Append, "two(X, Y) :- app(X, X, Z), app(Z, X, Y).\n", Text),
    wanted(Text, app/3, Wanted).

:- end_tests(patterns).

:- begin_tests(questions).

asked(Text, Query, Answer, Said) :-
    with_file(Text, File, cti_file_ask(File, Query, Reply, _, [])),
    _{answer:Answer, text:Said} :< Reply.

test(ground, Answer == yes) :-
    text(append, Text),
    asked(Text, 'app(b,f,f)', Answer, _).
test(length, Answer == yes) :-
    text(append, Text),
    asked(Text, 'app(f,f,l)', Answer, _).
test(length_is_not_ground, Answer == unknown) :-
    asked("even(0).\neven(s(s(N))) :- even(N).\n", 'even(l)', Answer, _).
test(loop, Answer == no) :-
    text(append, Text),
    asked(Text, 'app(f,b,f)', Answer, Said),
    has_text(Said, "line 2"),
    ends(Text, app(_, [], _), no).
test(loop_of_constants, Answer == no) :-
    graph(c, a, Text),
    asked(Text, 'path(b,f)', Answer, Said),
    has_text(Said, "lines 1, 3, 4, 5"),
    ends(Text, path(a, _), no).

%   The pure program has one constant, so its graph has a loop that this has not.

test(loop_of_the_pure_program_alone, Answer == unknown) :-
    graph(c, d, Text),
    asked(Text, 'path(b,f)', Answer, Said),
    has_text(Said, "which need not be one of the file"),
    ends(Text, path(a, _), yes).
test(loop_behind_a_cut, Answer == unknown) :-
    Text = "p(a) :- !.\np(X) :- p(X).\n",
    asked(Text, 'p(b)', Answer, Said),
    has_text(Said, "which need not be one of the file").
test(loop_behind_a_test, Answer == unknown) :-
    asked("p(X) :- X == a, X == b, p(X).\n", 'p(b)', Answer, _).
test(loop_of_a_dynamic_predicate, Answer == unknown) :-
    asked(":- dynamic p/1.\np(X) :- p(X).\n", 'p(b)', Answer, _).
test(loop_behind_a_rule_that_commits, Answer == unknown) :-
    Text = "p(a) => true.\np(X) => p(X).\n",
    asked(Text, 'p(b)', Answer, _),
    ends(Text, p(a), yes).
test(loop_of_rules_beside_others, Answer == no) :-
    Text = "q(a) => true.\np(X) :- p(X).\n",
    asked(Text, 'p(b)', Answer, _),
    ends(Text, p(a), no).
test(loop_behind_an_expansion, Answer == unknown) :-
    Text = "goal_expansion(q(X), r(X)).\np(X) :- q(X).\nq(X) :- p(X).\nr(_).\n",
    asked(Text, 'p(b)', Answer, _),
    ends(Text, p(a), yes).
test(clauses_that_are_refused, Answer == unknown) :-
    asked("p(X) :- atom_length(X, Y), p(Y).\natom_length(X, X).\n", 'p(b)', Answer, _).
test(loop_of_deep_terms, Answer == no) :-
    Text = "p(0, _).\np(_, 0).\np(s(M), s(N)) :- p(M, s(s(N))), p(s(s(M)), N).\n",
    asked(Text, 'p(b,b)', Answer, _),
    ends(Text, p(s(s(0)), s(0)), no).
test(call_that_needs_more, Answer == unknown) :-
    Text = "q(X, Y) :- p(X, Y), s(Y).\np(X, Y) :- atom_codes(X, Y).\ns([]).\ns([_|T]) :- s(T).\n",
    asked(Text, 'q(b,f)', Answer, Said),
    has_text(Said, "s/1 at 1:21 needs argument 1"),
    has_text(Said, "it ends where [[2]] by length"),
    ends(Text, q(abc, _), yes).
test(call_that_loops_for_an_empty_list, Answer == no) :-
    text(append, Append),
    string_concat(Append, "q(X, Y) :- app(X, Y, _), s(Y).\ns([]).\ns([_|T]) :- s(T).\n", Text),
    asked(Text, 'q(b,f)', Answer, _),
    ends(Text, q([], _), no).
test(left_recursive_grammar, Answer == no) :-
    Text = "e(plus(A, B)) --> e(A), \"+\", t(B).\ne(A) --> t(A).\nt(x) --> \"x\".\n",
    asked(Text, 'e(f,b,f)', Answer, _),
    ends(Text, e(_, [], _), no).
test(module, Answer == yes) :-
    text(pack, Text),
    asked(Text, 'pack:pack(b,b,f)', Answer, _).
test(assumptions, Numbers == [1]) :-
    with_file("p(G) :- call(G).\n", File, cti_file_ask(File, 'p(b)', Reply, _, [])),
    Reply.answer == yes,
    Numbers = Reply.assumptions.
test(no_predicate, error(no_predicate('q(b)'), _)) :-
    asked("p(a).\n", 'q(b)', _, _).
test(no_letters, error(no_pattern('p(X)'), _)) :-
    asked("p(a).\n", 'p(X)', _, _).

graph(From, To, Text) :-
    format(string(Text), "path(X, Y) :- edge(X, Z), path(Z, Y).\npath(X, Y) :- edge(X, Y).\n\
edge(a, b).\nedge(b, c).\nedge(~w, ~w).\n", [From, To]).

:- end_tests(questions).

%   What is asked in a first course: question(Program, Pattern, Answer, Query, Ends),
%   where Ends says whether the query, which meets the pattern, ends in SWI-Prolog.

:- begin_tests(programs).

question(ancestors, 'anc(b,f)', unknown, anc(a, _), yes).
question(lists, 'rev(l,f)', yes, rev([_, _, _], _), yes).
question(lists, 'rev(f,b)', no, rev(_, [a]), no).
question(lists, 'mem(f,l)', yes, mem(_, [_, _]), yes).
question(lists, 'mem(b,f)', no, mem(a, _), no).
question(lists, 'len(l,f)', yes, len([_, _], _), yes).
question(lists, 'len(f,b)', unknown, len(_, 2), no).
question(peano, 'plus(f,f,b)', yes, plus(_, _, s(s(0))), yes).
question(peano, 'times(b,b,f)', yes, times(s(s(0)), s(0), _), yes).
question(peano, 'even(l)', unknown, even(s(_)), no).
question(interpreter, 'solve(b)', yes, solve(nat(s(s(0)))), yes).
question(visited, 'path(b,f,b,f)', unknown, path(a, _, [a], _), yes).
question(accumulators, 'rev(b,f)', yes, rev([a, b], _), yes).
question(trees, 'inorder(b,f,f)', yes, inorder(t(nil, a, nil), _, _), yes).
question(trees, 'inorder(f,b,f)', no, inorder(_, [], _), no).
question(rose_trees, 'leaves(b,f)', yes, leaves(node(a, [node(b, []), node(c, [])]), _), yes).
question(cuts, 'disj(l,l)', yes, disj([a, b], [c, d]), yes).
question(tokens, 'tokens(b,f)', yes, tokens([0'a, 0' , 0'b], _), yes).
question(formulas, 'nnf(b,f)', yes, nnf(not(and(a, not(b))), _), yes).

test(answer, [forall(question(Program, Pattern, Answer, _, _)), Said == Answer]) :-
    program(Program, Text),
    with_file(Text, File, cti_file_ask(File, Pattern, Reply, _, [])),
    Said = Reply.answer.
test(query, [forall(question(Program, _, _, Query, Ends)), Found == Ends]) :-
    program(Program, Text),
    copy_term(Query, Goal),
    ends(Text, Goal, Found).

program(ancestors, "\
parent(a, b).
parent(b, c).
anc(X, Y) :- parent(X, Y).
anc(X, Y) :- parent(X, Z), anc(Z, Y).
").
program(lists, "\
rev([], []).
rev([H|T], R) :- rev(T, S), app(S, [H], R).
app([], L, L).
app([H|T], L, [H|R]) :- app(T, L, R).
mem(X, [X|_]).
mem(X, [_|T]) :- mem(X, T).
len([], 0).
len([_|T], N) :- len(T, M), N is M + 1.
").
program(peano, "\
plus(0, N, N).
plus(s(M), N, s(K)) :- plus(M, N, K).
times(0, _, 0).
times(s(M), N, K) :- times(M, N, L), plus(N, L, K).
even(0).
even(s(s(N))) :- even(N).
").
program(interpreter, "\
solve(true).
solve((A, B)) :- solve(A), solve(B).
solve(H) :- rule(H, B), solve(B).
rule(nat(0), true).
rule(nat(s(X)), nat(X)).
").
program(visited, "\
:- use_module(library(lists)).
edge(a, b).
edge(b, a).
path(X, X, _, [X]).
path(X, Y, Seen, [X|P]) :- edge(X, Z), \\+ memberchk(Z, Seen), path(Z, Y, [Z|Seen], P).
").
program(accumulators, "\
sum(L, S) :- sum(L, 0, S).
sum([], S, S).
sum([X|Xs], S0, S) :- S1 is S0 + X, sum(Xs, S1, S).
rev(L, R) :- rev(L, [], R).
rev([], R, R).
rev([X|Xs], A, R) :- rev(Xs, [X|A], R).
").
program(trees, "\
insert(nil, X, t(nil, X, nil)).
insert(t(L, Y, R), X, t(L1, Y, R)) :- X @< Y, !, insert(L, X, L1).
insert(t(L, Y, R), X, t(L, Y, R1)) :- insert(R, X, R1).
inorder(nil) --> [].
inorder(t(L, X, R)) --> inorder(L), [X], inorder(R).
").
program(rose_trees, "\
:- use_module(library(apply)).
:- use_module(library(lists)).
size(node(_, Cs), N) :- maplist(size, Cs, Ns), sum_list(Ns, M), N is M + 1.
leaves(node(X, []), [X]).
leaves(node(_, Cs), L) :- Cs = [_|_], foldl([C, A, B]>>(leaves(C, Ls), append(A, Ls, B)), Cs, [], L).
").
program(cuts, "\
sub([], _).
sub([X|Xs], Ys) :- mem(X, Ys), !, sub(Xs, Ys).
mem(X, [X|_]) :- !.
mem(X, [_|T]) :- mem(X, T).
disj([], _).
disj([X|Xs], Ys) :- \\+ mem(X, Ys), disj(Xs, Ys).
").
program(tokens, "\
tokens([], []).
tokens([0' |Cs], Ts) :- !, tokens(Cs, Ts).
tokens([C|Cs], [word([C|W])|Ts]) :- code_type(C, alpha), !, word(Cs, W, Rest), tokens(Rest, Ts).
word([C|Cs], [C|W], Rest) :- code_type(C, alpha), !, word(Cs, W, Rest).
word(Rest, [], Rest).
").
program(formulas, "\
nnf(not(not(A)), B) :- !, nnf(A, B).
nnf(not(and(A, B)), or(C, D)) :- !, nnf(not(A), C), nnf(not(B), D).
nnf(not(or(A, B)), and(C, D)) :- !, nnf(not(A), C), nnf(not(B), D).
nnf(and(A, B), and(C, D)) :- !, nnf(A, C), nnf(B, D).
nnf(or(A, B), or(C, D)) :- !, nnf(A, C), nnf(B, D).
nnf(L, L).
").

:- end_tests(programs).

% The script: words, texts that cannot be read, and what is not in time.

:- begin_tests(script).

script(Script) :-
    module_property(cti_file, file(Module)),
    file_directory_name(Module, Directory),
    directory_file_path(Directory, 'cti-file', Script).

%   run(+Words, -Status, -Output, -Messages)

run(Words, Status, Output, Messages) :-
    getenv('CTI', Cti0),
    absolute_file_name(Cti0, Cti),
    run(Words, [environment(['CTI'=Cti])], Status, Output, Messages).

run(Words, Options, Status, Output, Messages) :-
    script(Script),
    tmp_file_stream(utf8, MessageFile, Err),
    append([stdout(pipe(Out, [encoding(utf8)])), stderr(stream(Err)), process(Process)], Options, All),
    process_create(Script, Words, All),
    call_cleanup(read_string(Out, _, Output), close(Out)),
    process_wait(Process, exit(Status)),
    close(Err),
    read_file_to_string(MessageFile, Messages, [encoding(utf8)]),
    delete_file(MessageFile).

test(answer, Status-Messages == 0-"") :-
    text(append, Text),
    with_file(Text, File, run([File], Status, Output, Messages)),
    has_text(Output, "[[1],[3]] by length").
test(value_after_equals, Status == 0) :-
    text(append, Text),
    with_file(Text, File, run(['--norm=term', File], Status, Output, _)),
    has_text(Output, " [[1],[3]]\n").
test(value_in_the_next_word, Status == 0) :-
    text(append, Text),
    with_file(Text, File, run(['--norm', list, '--timeout', '20', File], Status, Output, _)),
    has_text(Output, "[[1],[3]] by length").
test(help, Status-Messages == 0-"") :-
    run(['--help'], Status, Output, Messages),
    has_text(Output, "usage: cti-file [OPTION ..] FILE .."),
    forall(member(Option, ["--ask", "--keep", "--norm", "--timeout", "--no-check", "--row", "--version"]),
           has_text(Output, Option)).
test(version, Status-Output == 0-Expected) :-
    run(['--version'], Status, Output, _),
    module_property(cti_file, file(Module)),
    file_directory_name(Module, Directory),
    directory_file_path(Directory, 'pack.pl', Pack),
    read_file_to_terms(Pack, Terms, []),
    memberchk(version(Version), Terms),
    format(string(Expected), "cti-file ~w~n", [Version]).
test(wrong_words, [forall(member(Words-Said, [ []-"a file is missing",
                                               ['--norm=lists', x]-"`lists` is not a norm: --norm takes term or list",
                                               ['--norm', lists, x]-"`lists` is not a norm",
                                               ['--timeout', soon, x]-"`soon` is not a number of seconds",
                                               ['--timeout']-"--timeout needs a value",
                                               ['--keep=/no/such', x]-"there is no directory `/no/such`",
                                               ['--nrm', x]-"`--nrm` is not an option",
                                               ['--nrm=1', x]-"`--nrm=1` is not an option",
                                               ['-x', x]-"`-x` is not an option" ])),
                   Status-Output == 2-""]) :-
    run(Words, Status, Output, Messages),
    has_text(Messages, Said).
test(missing_file, Status == 4) :-
    run(['/no/such/file.pl'], Status, _, Messages),
    has_text(Messages, "/no/such/file.pl: error: ").
test(file_that_begins_with_a_dash, Status == 4) :-
    run(['--', '--no-such-file'], Status, _, _).
test(some_files, Status == 5) :-
    with_file("p(a).\n", A,
              with_file("q(b.\nr(c).\n", B,
                        run([A, B], Status, Output, _))),
    has_text(Output, "p/1"),
    has_text(Output, "r/1").
test(status_of_a_question, Statuses == [0, 1, 7]) :-
    text(append, Text),
    findall(Status,
            ( member(Query, ['app(b,f,f)', 'app(f,b,f)', 'q(b)']),
              string_concat(Text, "q(X) :- X \\== a, q(X).\n", All),
              with_file(All, File, run(['--ask', Query, File], Status, _, _)) ),
            Statuses).
test(question_that_is_none, Status == 2) :-
    with_file("p(a).\n", File, run(['--ask', 'p(X)', File], Status, _, Messages)),
    has_text(Messages, "`p(X)` is no query of letters").

%   A clause that cannot be read: the reader's own message, at its place.

test(unread_clause, [forall(member(Text-Place, [ "p(X) :- q(X)\nq(a).\nr(b).\n"-"1:14",
                                                 "p(X :- q(X).\nr(b).\n"-"1:12",
                                                 "r(b).\n\np :- (q.\n"-"3:8" ])),
                     Status == 5]) :-
    with_file(Text, File, run([File], Status, Output, Messages)),
    format(string(Expected), "~w:~s: error: Syntax error: ", [File, Place]),
    string_concat(Expected, _, Messages),
    has_text(Output, "r/1").
test(binary, Status-Output == 5-"") :-
    with_file("\x7f\ELF\x0\\x1\\x2\\xFF\", octet, File, run([File], Status, Output, Messages)),
    format(string(Expected), "~w:1:1: error: this is no text: it has bytes of 0~n", [File]),
    Messages == Expected.
test(utf16, [forall(member(Encoding, [unicode_le, unicode_be])), Status-Output == 5-""]) :-
    with_file("p(a).\n", Encoding, File, run([File], Status, Output, Messages)),
    format(string(Expected), "~w:1:1: error: this text is in UTF-16 or UTF-32: save it as UTF-8~n", [File]),
    Messages == Expected.
test(utf8_with_a_mark, Status == 0) :-
    with_file("größer(a).\n", utf8, File, run([File], Status, Output, _)),
    has_text(Output, "größer/1").
test(utf16_that_is_included, Status == 5) :-
    with_file("p(a).\n", unicode_le, Included,
              ( format(string(Text), ":- include('~w').\nq(a).\n", [Included]),
                with_file(Text, File, run([File], Status, _, Messages)) )),
    has_text(Messages, "UTF-16").

%   cti that never ends is ended.

test(timeout, Status == 6) :-
    tmp_file(sleeper, Program),
    setup_call_cleanup(open(Program, write, Out), format(Out, "#!/bin/sh~nexec sleep 60~n", []), close(Out)),
    chmod(Program, +x),
    get_time(Start),
    with_file("p(a).\n", File, run(['--timeout', '0.5', File], [environment(['CTI'=Program])], Status, _, Messages)),
    get_time(End),
    delete_file(Program),
    has_text(Messages, "cti did not end in time"),
    End - Start < 20.
test(time_for_the_first_question_alone, Modes == [[1], [3]]) :-
    getenv('CTI', Cti0),
    absolute_file_name(Cti0, Cti),
    tmp_file(sleeper, Program),
    setup_call_cleanup(open(Program, write, Out),
                       format(Out, "#!/bin/sh~ncase \"$*\" in *list*|lex*) exec sleep 60;; *) exec '~w' \"$@\";; esac~n", [Cti]),
                       close(Out)),
    chmod(Program, +x),
    text(append, Text),
    setup_call_cleanup(setenv('CTI', Program),
                       with_file(Text, File, cti_file_answer(File, Answer, [timeout(2)])),
                       ( setenv('CTI', Cti0), delete_file(Program) )),
    Answer.unanswered == [list_size, lists_of_mappings],
    predicate_of(Answer, app/3, Predicate),
    findall(Arguments, member(mode{arguments:Arguments, by:ground}, Predicate.modes), Modes).

%   What docs/real-files.md and docs/tutorial.md show is what is said.

test(page, [forall(page_command(Directory, Words, Expected)), cleanup(delete_directory_and_contents(Directory)), true]) :-
    getenv('CTI', Cti0),
    absolute_file_name(Cti0, Cti),
    run(Words, [environment(['CTI'=Cti]), cwd(Directory)], _, Output, _),
    split_string(Output, "\n", "", Lines),
    starts_with(Expected, Lines).

starts_with([".."], _) :- !.
starts_with([], Lines) :-
    !,
    exclude(==(""), Lines, []).
starts_with([Line|Expected], [Line|Lines]) :-
    starts_with(Expected, Lines).

%   page_command(-Directory, -Words, -Expected): a command of the page, in a
%   directory that has its files.

page_command(Directory, Words, Expected) :-
    member(Name, ['../docs/real-files.md', '../docs/tutorial.md']),
    page_blocks(Name, Blocks),
    findall(Command, ( member(Block, Blocks), commands(Block, Commands), member(Command, Commands) ), All),
    All = [_, _, _, _|_],
    member(command(Words, Expected), All),
    tmp_file(page, Directory),
    make_directory(Directory),
    forall(( member(Block, Blocks), page_file(Block, FileName, Text) ),
           ( directory_file_path(Directory, FileName, File),
             setup_call_cleanup(open(File, write, Out, [encoding(utf8)]), write(Out, Text), close(Out)) )),
    forall(( member(Block, Blocks), member(Line, Block), string_concat("$ sed ", _, Line) ),
           changed(Directory, Line)).

%   changed(+Directory, +Line): makes the file that a line with `sed` makes.

changed(Directory, Line) :-
    string_concat("$ ", Command, Line),
    process_create(path(sh), ['-c', Command], [cwd(Directory)]).

page_blocks(Name, Blocks) :-
    module_property(cti_file, file(Module)),
    file_directory_name(Module, Directory),
    directory_file_path(Directory, Name, Page),
    read_file_to_string(Page, Text, [encoding(utf8)]),
    split_string(Text, "\n", "", Lines),
    blocks(Lines, Blocks).

blocks(Lines, Blocks) :-
    (   append(_, ["```"|Rest], Lines)
    ->  append(Block, ["```"|After], Rest),
        !,
        Blocks = [Block|More],
        blocks(After, More)
    ;   Blocks = []
    ).

%   A text with line numbers, or what `cat` shows.

page_file([First|Lines], Name, Text) :-
    (   member(Start-Name, [" 1  :- use_module(library(lists))."-'queens.pl', " 1  :- module(calc, "-'calc.pl'])
    ,   string_concat(Start, _, First)
    ->  maplist(without_number, [First|Lines], Plain)
    ;   string_concat("$ cat ", NameText, First),
        atom_string(Name, NameText),
        append(Plain0, [Next|_], Lines),
        string_concat("$ ", _, Next)
    ->  append(Plain0, [""], Plain)
    ),
    atomic_list_concat(Plain, '\n', Text).

without_number(Line, Plain) :-
    (   sub_string(Line, 4, _, 0, Plain0)
    ->  Plain = Plain0
    ;   Plain = ""
    ).

commands(Lines, Commands) :-
    (   append(_, [Line|Rest], Lines),
        string_concat("$ cti-file ", WordsText, Line)
    ->  (   append(Output, [Next|Others], Rest), string_concat("$ ", _, Next)
        ->  true
        ;   Output = Rest, Next = "", Others = []
        ),
        words_of(WordsText, Words),
        Commands = [command(Words, Output)|More],
        commands([Next|Others], More)
    ;   Commands = []
    ).

words_of(Text, Words) :-
    split_string(Text, " ", "'", Parts),
    maplist([Part, Word]>>atom_string(Word, Part), Parts, Words).

%   A reader that goes away.

test(closed_pipe, Messages == "") :-
    script(Script),
    getenv('CTI', Cti0),
    absolute_file_name(Cti0, Cti),
    findall(Line, ( between(1, 2000, N), format(string(Line), "predicate_with_a_long_name_~d(a).\n", [N]) ), Lines),
    atomics_to_string(Lines, Text),
    with_file(Text, File,
              ( format(atom(Command), "'~w' --no-check '~w' | head -1", [Script, File]),
                tmp_file_stream(utf8, MessageFile, Err),
                process_create(path(sh), ['-c', Command],
                               [stdout(null), stderr(stream(Err)), process(Process), environment(['CTI'=Cti])]),
                process_wait(Process, exit(_)),
                close(Err),
                read_file_to_string(MessageFile, Messages, [encoding(utf8)]),
                delete_file(MessageFile) )).

:- end_tests(script).

:- begin_tests(assumptions).

test(order_of_lines, Lines == [1, 2, 3]) :-
    with_file("z(X) :- call(X).\nm(X) :- call(X).\na(X) :- call(X).\n", File, cti_file_answer(File, Answer, [])),
    findall(Line, ( member(Assumption, Answer.assumptions), Line = Assumption.line ), Lines).
test(numbers, Numbers == [z/1-[1], a/1-[2]]) :-
    with_file("z(X) :- call(X).\na(X) :- call(X).\n", File, cti_file_answer(File, Answer, [])),
    findall(Name-Assumptions,
            ( member(Predicate, Answer.predicates), _{name:Name, assumptions:Assumptions} :< Predicate ),
            Numbers).

:- end_tests(assumptions).
