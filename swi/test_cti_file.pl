:- encoding(utf8).

% Tests of the module cti_file. Run them at the top of the repository, once bin/cti is built:
%
%     CTI=bin/cti swipl -g run_tests -t halt swi/test_cti_file.pl

:- use_module(cti_file).
:- use_module(library(lists)).
:- use_module(library(plunit)).
:- use_module(library(readutil)).
:- use_module(library(filesex)).

%   said(+Text, +Predicate, -Sets, -Doubts): what is said of a predicate of a
%   file with this text.

said(Text, Predicate, Sets, Doubts) :-
    tmp_file(real, Base),
    file_name_extension(Base, pl, File),
    said_of(File, Text, Predicate, Sets, Doubts).

said_of(File, Text, Predicate, Sets, Doubts) :-
    setup_call_cleanup(open(File, write, Out, [encoding(utf8)]), write(Out, Text), close(Out)),
    cti_file_modes(File, Modes, Assumptions),
    delete_file(File),
    memberchk(Predicate-Sets, Modes),
    findall(Doubt,
            ( member(assumed(_, _, Doubt, Dependents), Assumptions), memberchk(Predicate, Dependents) ),
            Doubts).

%   is_open(+Text, +Predicate): nothing is promised of the predicate.

is_open(Text, Predicate) :-
    said(Text, Predicate, Sets, _),
    Sets == [].

is_assumed_or_open(Text, Predicate) :-
    setup(Text, File),
    catch(cti_file_modes(File, Modes, Assumptions), _, true),
    delete_file(File),
    (   memberchk(Predicate-[], Modes)
    ->  true
    ;   Assumptions \== []
    ).

%   with_text(+Before, -Text): p/1 goes on where the text in it is a list.

with_text(Before, Text) :-
    string_concat(Before, "p([_|T]) :- app(\"ab\", T, L), p(L).\napp([], L, L).\napp([H|T], L, [H|R]) :- app(T, L, R).\n", Text).

setup(Text, File) :-
    tmp_file(real, Base),
    file_name_extension(Base, pl, File),
    setup_call_cleanup(open(File, write, Out, [encoding(utf8)]), write(Out, Text), close(Out)).

%   is_assumed(+Text, +Predicate, +Doubt): what is promised stands on Doubt.

is_assumed(Text, Predicate, Doubt) :-
    said(Text, Predicate, _, Doubts),
    memberchk(Doubt, Doubts).


% Each file of these two groups has a query that does not end in SWI-Prolog.
% In the first group the predicate has no mode that the query meets; in the
% second one the assumption that does not hold is named.

:- begin_tests(covered).

test(plain, Sets == [[1], [3]]) :-
    said("app([], L, L).\napp([H|T], L, [H|R]) :- app(T, L, R).\n", app/3, Sets, []).
test(cut) :-
    is_open("p(X) :- !, p(X).\np(_).\n", p/1).
test(cut_does_not_end_it) :-
    is_open("p(X) :- q(X), !.\nq(X) :- q(X).\n", p/1).
test(condition) :-
    is_open("p(X) :- ( p(X) -> true ; true ).\n", p/1).
test(then) :-
    is_open("p(X) :- ( atom(X) -> p(X) ; true ).\n", p/1).
test(else) :-
    is_open("p(X) :- ( atom(X) -> true ; p(X) ).\n", p/1).
test(soft_condition) :-
    is_open("p(X) :- ( member(X, [a]) *-> p(X) ; true ).\n", p/1).
test(else_sees_nothing_of_the_condition, Sets == [[1]]) :-
    said("p(X) :- ( X = f(a), fail -> true ; q(X) ).\nq(f(X)) :- q(X).\nq(a).\n", p/1, Sets, []).
test(negation) :-
    is_open("p(X) :- \\+ p(X).\n", p/1).
test(negation_binds_nothing, Sets == [[1]]) :-
    said("p(X) :- \\+ X = a, q(X).\nq(f(X)) :- q(X).\nq(a).\n", p/1, Sets, []).
test(not) :-
    is_open("p(X) :- not(p(X)).\n", p/1).
test(forall) :-
    is_open("p(X) :- forall(member(X, [a]), p(X)).\n", p/1).
test(findall) :-
    is_open("p(X) :- findall(Y, p(Y), X).\n", p/1).
test(findall_gives_any_list) :-
    is_open("p(X) :- findall(Y, member(Y, [a, b]), L), q(L), X = a.\nq(L) :- q([a|L]).\nq(L) :- L = [_|T], q(T).\n", p/1).
test(bagof_leaves_its_template, Sets == [[1]]) :-
    said("p(X) :- bagof(X, member(X, [f(a)]), _), q(X).\nq(f(X)) :- q(X).\nq(a).\n", p/1, Sets, []).
test(setof_hat, Sets == [[1]]) :-
    said("p(Y) :- setof(X, Y^member(X-Y, [a-f(b)]), _), q(Y).\nq(f(X)) :- q(X).\nq(a).\n", p/1, Sets, []).
test(aggregate) :-
    is_open("p(X) :- aggregate_all(count, p(X), _).\n", p/1).
test(foreach) :-
    is_open("p(X) :- foreach(member(X, [a]), p(X)).\n", p/1).
test(catch) :-
    is_open("p(X) :- catch(p(X), _, true).\n", p/1).
test(recovery) :-
    is_open("p(X) :- catch(throw(a), _, p(X)).\n", p/1).
test(cleanup) :-
    is_open("p(X) :- setup_call_cleanup(true, true, p(X)).\n", p/1).
test(limits) :-
    is_open("p(X) :- call_with_depth_limit(fail, 10, _).\np(X) :- call_with_inference_limit(true, 10, _), p(X).\n", p/1).
test(known_goal) :-
    is_open("p(X) :- G = a, call(p, X), G = a.\n", p/1).
test(closure) :-
    is_open("p(X) :- maplist(p2, [X]).\np2(X) :- p(X).\n", p/1).
test(closure_of_closure) :-
    is_open("p(X) :- maplist(maplist(p2(a)), [[X]]).\np2(_, X) :- p(X).\n", p/1).
test(closure_in_foldl) :-
    is_open("p(X) :- foldl(p2, [X], a, _).\np2(X, S, S) :- p(X).\n", p/1).
test(closure_in_include) :-
    is_open("p(X) :- include(p2, [X], _).\np2(X) :- p(X).\n", p/1).
test(closure_in_own_predicate) :-
    is_open(":- meta_predicate each(1, ?).\neach(_, []).\neach(G, [H|T]) :- call(G, H), each(G, T).\np(X) :- each(p, [X]).\n", p/1).
test(qualified_argument) :-
    is_open(":- meta_predicate p(0).\np(_:G) :- r(G).\nr(G) :- r(G).\nq(X) :- p(foo), X = a.\n", q/1).
test(qualified_variable) :-
    is_open(":- meta_predicate p(:).\np(_:G) :- r(G).\nr(G) :- r(G).\nq(X) :- p(X), X = a.\n", q/1).
test(argument_qualified_twice) :-
    is_open(":- meta_predicate p(:, ?).\np(b:f(G), H) :- app(H, G, [x, x, x]).\nw([_|T]) :- p(a:b:f([x, x]), H), app(H, T, L), w(L).\n\
app([], L, L).\napp([H|T], L, [H|R]) :- app(T, L, R).\n", w/1).
test(argument_qualified_later) :-
    is_open(":- meta_predicate p(:, ?).\np(b:f(G), H) :- app(H, G, [x, x, x]).\n\
w([_|T]) :- X = b:f([x, x]), p(a:X, H), app(H, T, L), w(L).\napp([], L, L).\napp([H|T], L, [H|R]) :- app(T, L, R).\n", w/1).
test(context_of_a_call) :-
    is_open("p(X) :- @(p(X), user).\n", p/1).
test(closure_in_predsort) :-
    is_open("p(X) :- predsort(p2, [X, X], _).\np2(<, X, _) :- p(X).\n", p/1).
test(lambda) :-
    is_open("p(X) :- maplist([Y]>>p(Y), [X]).\n", p/1).
test(lambda_copies_what_is_not_free, Sets == []) :-
    said("p(L) :- maplist([X]>>(Y = f(X)), L), q(Y), L = [_|_].\nq(f(X)) :- q(X).\nq(a).\n", p/1, Sets, []).
test(lambda_shares_what_is_free, Sets == [[1]]) :-
    said("p(L, Y) :- maplist({Y}/[X]>>app(X, _, Y), L).\napp([], L, L).\napp([H|T], L, [H|R]) :- app(T, L, R).\n",
         p/2, Sets, []).
test(maplist, Sets == [[1], [2]]) :-
    said("p(L, M) :- maplist(q, L, M).\nq(X, f(X)).\n", p/2, Sets, []).
test(maplist_that_calls_back, Sets == [[1]]) :-
    said("walk(t(_, Ts)) :- maplist(walk, Ts).\n", walk/1, Sets, []).
test(apply) :-
    is_open("p(X) :- apply(p, [X]).\n", p/1).
test(phrase) :-
    is_open("p(X) :- phrase(r, X).\nr --> r, [a].\nr --> [].\n", p/1).
test(phrase_in_a_module) :-
    is_open("p(X) :- phrase(user:r, X).\nr --> r, [a].\nr --> [].\n", p/1).
test(closure_of_a_grammar) :-
    is_open(":- use_module(library(dcg/high_order)).\np(X) :- phrase(sequence(r, _), X).\nr(a) --> r(a).\n", p/1).
test(grammar, Sets == [[1]]) :-
    said("s --> [].\ns --> \"ab\", s.\n", s/2, Sets, []).
test(pushback) :-
    is_open("s --> r, s.\nr, [a] --> [a].\n", s/2).
test(rule_that_matches, Sets == [[1]]) :-
    said("len([], N) => N = 0.\nlen([_|T], N) => len(T, M), N is M + 1.\n", len/2, Sets, []).
test(rule_with_guard) :-
    is_open("p(X), atom(X) => p(X).\np(_) => true.\n", p/1).
test(arithmetic_gives_a_number) :-
    is_open("p(N) :- M is N - 1, p(M).\n", p/1).
test(atomic_may_be_nil) :-
    is_open("p(X) :- atomic(X), q(X).\nq([]) :- q([]).\nq(a).\n", p/1).
test(functor_may_be_nil) :-
    is_open("p(X) :- functor(X, F, _), q(F).\nq([]) :- q([]).\nq(a).\n", p/1).
test(codes) :-
    is_open(":- set_prolog_flag(double_quotes, codes).\np(X) :- X = \"ab\", q(X).\nq([_|_]) :- q([a]).\nq(a).\n", p/1).
test(texts, Sets == [[1]]) :-
    with_text("", Text),
    said(Text, p/1, Sets, []).
test(codes_of_a_module) :-
    with_text(":- set_prolog_flag(user:double_quotes, codes).\n", Text),
    is_open(Text, p/1).
test(codes_of_a_directive_with_a_module) :-
    with_text(":- module(m, []).\n:- m:set_prolog_flag(double_quotes, codes).\n", Text),
    is_open(Text, p/1).
test(codes_of_a_directive_with_another_module) :-
    with_text(":- module(m, []).\n:- user:set_prolog_flag(double_quotes, codes).\n", Text),
    is_open(Text, p/1).
test(codes_of_another_module, Sets == [[1]]) :-
    with_text(":- module(m, []).\n:- set_prolog_flag(user:double_quotes, codes).\n", Text),
    said(Text, p/1, Sets, []).
test(declaration_with_a_module) :-
    is_open(":- user:dynamic(q/1).\nq(a).\np(X) :- q(Y), r(Y), X = a.\nr([]) :- r([]).\nr(a).\n", p/1).
test(back_quotes) :-
    is_open("p(X) :- X = `ab`, q(X).\nq([_|_]) :- q([a]).\nq(a).\n", p/1).
test(body_of_a_clause_for_another_module) :-
    is_open(":- module(m, []).\nuser:q(X) :- p(X).\np(X) :- user:q(X).\n", p/1).
test(variable_term) :-
    is_open("p(X) :- q('$VAR'(1), X).\nq('$VAR'(1), X) :- q('$VAR'(1), X).\n", p/1).
test(zero_arguments) :-
    is_open("p(X) :- X = f(), q(X).\nq(X) :- q(X).\n", p/1).
test(goal_of_zero_arguments) :-
    is_open("p(X) :- r(), X = a.\nr() :- r().\n", p/1),
    is_open("p(X) :- q(), X = a.\nq :- G = 1, call(q()), G = 1.\n", p/1).
test(number_of_zero_arguments, Sets == [[]]) :-
    said("p(X) :- X is random().\n", p/1, Sets, []).
test(list_of_clauses) :-
    is_open("p(a).\n[(p(X) :- p(X)), q(b)].\n", p/1).
test(declaration_of_zero_arguments, Sets == [[]]) :-
    said(":- meta_predicate f().\n:- foo().\np(a).\n", p/1, Sets, [directive(external(foo/0))]).
test(names) :-
    is_open("'it''s \\\\ é'(X) :- '='(X).\n'='(X) :- 'it''s \\\\ é'(X).\np(X) :- '='(X).\n", p/1).
test(kept_names) :-
    is_open("write(X, Y, Z) :- write(X, Y, Z).\np(X) :- write(X, X, X).\n", p/1).
test(own_forall) :-
    is_open("forall(X, Y) :- forall(X, Y).\np(X) :- forall(X, X).\n", p/1).
test(own_append) :-
    is_open(":- use_module(library(lists)).\nappend(X, Y, Z) :- append(X, Y, Z).\np(X) :- append([], X, X).\n", p/1).
test(own_succ) :-
    is_open("succ(X, Y) :- succ(X, Y).\np(X) :- succ(X, X).\n", p/1).
test(other_module) :-
    is_open(":- module(m, []).\nuser:q(X) :- user:q(X).\np(X) :- user:q(X).\n", p/1).
test(inherited_from_user) :-
    is_open(":- module(m, []).\nuser:q(X) :- user:q(X).\np(X) :- q(X).\n", p/1).
test(qualified) :-
    is_open(":- module(m, [p/1]).\np(X) :- m:p(X).\n", p/1).
test(clause_in_module) :-
    is_open(":- module(m, [p/1]).\nm:(p(X) :- p(X)).\n", p/1).
test(library_predicate, Sets == [[1, 2]]) :-
    said("p(X, Y, Z) :- subtract(X, Y, Z).\n", p/3, Sets, []).
test(library_predicate_alone) :-
    is_open("p(X) :- append(_, X, _).\n", p/1).
test(memberchk, Sets == [[2]]) :-
    said(":- use_module(library(lists)).\np(X, L) :- memberchk(X, L).\n", p/2, Sets, []).
test(nth, Sets == [[2]]) :-
    said("p(I, L, X) :- nth0(I, L, X).\n", p/3, Sets, []).
test(length_of_unknown_list) :-
    is_open("p(N) :- length(_, N), fail.\n", p/1).
test(length_that_is_known, Sets == [[]]) :-
    said("p(L) :- length(L, 3).\n", p/1, Sets, []).
test(between_infinite) :-
    is_open("p(X) :- between(1, inf, X).\n", p/1).
test(between, Sets == [[]]) :-
    said("p(X) :- between(1, 3, X).\n", p/1, Sets, []).
test(repeat) :-
    is_open("p(X) :- repeat, X = a.\n", p/1).
test(sort, Sets == [[1]]) :-
    said("p(L, S) :- sort(L, M), q(M, S).\nq([], []).\nq([H|T], [H|R]) :- q(T, R).\n", p/2, Sets, []).
test(asserted_rule) :-
    is_open("p(X) :- assertz((q(X) :- q(X))), q(X).\n", p/1).
test(asserted_rule_of_another_module) :-
    is_open(":- module(m, []).\n:- dynamic user:q/1.\np(X) :- user:assertz((q(X) :- q(X))), user:q(X).\n", p/1).
test(asserted_rule_of_a_context) :-
    is_open(":- module(m, []).\n:- dynamic user:q/1.\np(X) :- @(assertz((q(X) :- q(X))), user), user:q(X).\n", p/1).
test(asserted_rule_of_a_directive_with_a_module) :-
    is_open(":- module(m, []).\n:- user:assertz((q(X) :- q(X))).\np(X) :- user:q(X).\n", p/1).
test(asserted_rule_of_a_clause_for_another_module) :-
    is_open(":- module(m, []).\n:- dynamic q/1.\nuser:p(X) :- assertz((q(X) :- q(X))), q(X).\n", user:p/1).
test(asserted_fact, Sets == [[]]) :-
    said(":- dynamic n/1.\np(X) :- retract(n(Y)), Z is Y + 1, assertz(n(Z)), X = Z.\n", p/1, Sets, []).
test(facts_may_be_anything) :-
    is_open(":- dynamic q/1.\nq(a).\np(X) :- q(Y), r(Y), X = a.\nr([]) :- r([]).\nr(a).\n", p/1).
test(hook_of_messages) :-
    is_open(":- multifile prolog:message//1.\nprolog:message(a) --> { p(_) }.\np(X) :- print_message(error, X).\n", p/1).
test(hook_of_print) :-
    is_open(":- multifile user:portray/1.\nuser:portray(a) :- p(a).\np(X) :- print(X).\n", p/1).
test(hook_of_the_length_of_a_text) :-
    is_open(":- multifile user:portray/1.\nuser:portray(a) :- p(a).\np(X) :- write_length(X, _, [portray(true)]).\n", p/1).
test(hook_of_an_assertion) :-
    is_open(":- multifile prolog:assertion_failed/2.\nprolog:assertion_failed(_, _) :- p(_).\np(X) :- assertion(X = a).\n", p/1).
test(hook_of_messages_in_a_language) :-
    is_open(":- multifile prolog:message//2.\nprolog:message(_, a) --> { p(_) }.\np(X) :- print_message(error, X).\n", p/1).
test(hook_of_debugging) :-
    is_open(":- multifile prolog:debug_print_hook/3.\nprolog:debug_print_hook(_, _, _) :- p(_).\np(X) :- debug(a, \"~w\", [X]).\n", p/1).
test(hook_of_files) :-
    is_open(":- multifile user:file_search_path/2.\nuser:file_search_path(a, _) :- p(_).\np(X) :- read_file_to_codes(a(X), _, []).\n", p/1).
test(hook_of_libraries) :-
    is_open(":- multifile user:library_directory/1.\nuser:library_directory(_) :- p(_).\n\
p(X) :- absolute_file_name(library(X), _, []).\n", p/1).
test(no_hooks, Doubts == []) :-
    said("p(X) :- debug(a, \"~w\", [X]), portray_clause(X), read_line_to_string(user_input, _).\n", p/1, [[]], Doubts).
test(type_that_is_not_known) :-
    is_open("p(T, X, [x]) :- must_be(T, X), X = [_].\nw([_|T]) :- p(list(any), [a], H), app(H, T, L), w(L).\n\
app([], L, L).\napp([H|T], L, [H|R]) :- app(T, L, R).\n", w/1).
test(hook_of_types) :-
    is_open(":- module(m, []).\n:- multifile error:has_type/2.\nerror:has_type(t, X) :- p(X).\np(X) :- must_be(t, X).\n", p/1).
test(decided_condition) :-
    is_open(":- if(fail).\np(a).\n:- elif(current_prolog_flag(bounded, false)).\np(X) :- p(X).\n:- else.\np(b).\n:- endif.\n", p/1).
test(skipped_condition, Sets == [[]]) :-
    said(":- if(fail).\np(X) :- p(X).\n:- if(true).\np(X) :- p(X).\n:- endif.\n:- else.\np(b).\n:- endif.\n", p/1, Sets, []).
test(condition_after_one_that_held) :-
    is_open(":- if(true).\n:- elif(true).\nappend(_, _, _).\n:- elif(true).\nappend(_, _, _).\n:- else.\nappend(_, _, _).\n:- endif.\n\
p(X) :- append(_, X, _).\n", p/1).
test(operators) :-
    is_open(":- op(700, xfx, ===>).\nX ===> Y :- X ===> Y.\np(X) :- X ===> X.\n", p/1).
test(operators_within_a_directive) :-
    is_open(":- catch(op(700, xfx, ===>), _, true).\nX ===> Y :- X ===> Y.\np(X) :- X ===> X.\n", p/1).
test(operators_of_a_library) :-
    said(":- use_module(library(clpfd)).\np(X) :- X #> 3.\n", p/1, _, Doubts),
    memberchk(external(clpfd:(#>)/2), Doubts).
test(tests_of_a_unit) :-
    is_open(":- begin_tests(u).\ntest(a) :- p(a).\n:- end_tests(u).\np(X) :- p(X).\n", plunit_u:test/1).
test(closure_in_data) :-
    is_assumed_or_open("p(X) :- q('$closure'(user, r), X).\nq(C, X) :- C = '$closure'(_, _), q(C, X).\n", p/1).
test(own_closure) :-
    is_open("closure(X, Y) :- closure(X, Y).\np(X) :- closure(user, true), X = a.\n", p/1).
test(module_named_prelude) :-
    is_open(":- module(prelude, []).\nlength(X, Y, Z) :- length(X, Y, Z).\n\
nth(X, Y, Z) :- nth(X, Y, Z).\np(X) :- nth(X, X, X).\n", p/1).
test(system_and_not_user) :-
    is_open("between(_, _, _).\np(X) :- system:between(1, inf, X).\n", p/1).
test(import_before_user, Sets == [[1]]) :-
    said(":- module(m, []).\n:- use_module(library(lists)).\nuser:append(_, _, _).\np(X) :- append(_, [a], X).\n", p/1, Sets, []).
test(user_before_system) :-
    is_open(":- module(m, []).\nuser:between(X, Y, Z) :- user:between(X, Y, Z).\np(X) :- between(1, 2, X).\n", p/1).
test(refused_clauses) :-
    is_open("repeat.\np(X) :- repeat, X = a.\n", p/1),
    \+ said("repeat.\np(X) :- repeat, X = a.\n", repeat/0, _, _).
test(redefined) :-
    is_open(":- redefine_system_predicate(number_codes(_, _)).\nnumber_codes(X, Y) :- number_codes(X, Y).\n\
p(X) :- number_codes(X, \"12\").\n", p/1).
test(many_arguments, Sets == [[1]]) :-
    said("p([], _, _, _, _, _, _, _, _, _, _, _, _, _).\n\
p([_|T], A, B, C, D, E, F, G, H, I, J, K, L, M) :- p(T, A, B, C, D, E, F, G, H, I, J, K, L, M).\n",
         p/14, Sets, []).
test(many_arguments_last, Sets == [[12, 13, 14]]) :-
    said("p(_, _, _, _, _, _, _, _, _, _, _, _, _, []).\n\
p(A, B, C, D, E, F, G, H, I, J, K, L, M, [_|T]) :- p(A, B, C, D, E, F, G, H, I, J, K, L, M, T).\n",
         p/14, Sets, []).
test(many_variables) :-
    numlist(1, 60, Ns),
    findall(V, ( member(N, Ns), format(string(V), "X~d", [N]) ), Vs),
    atomic_list_concat(Vs, ', ', Names),
    findall(G, ( member(V, Vs), format(string(G), "r(~s)", [V]) ), Gs),
    atomic_list_concat(Gs, ', ', Goals),
    format(string(Text), "p(Y) :- q(f(~w)), ~w, p(Y).\nq(_).\nr(_).\n", [Names, Goals]),
    is_open(Text, p/1).
test(wide_disjunction, Sets == [[1]]) :-
    numlist(1, 20, Ns),
    findall(V, ( member(N, Ns), format(string(V), "X~d", [N]) ), Vs),
    atomic_list_concat(Vs, ', ', Names),
    format(string(Text), "p([], _).\np([_|T], f(~w)) :- ( q(~w) -> p(T, f(~w)) ; p(T, g(~w)) ).\nq(~w).\n",
           [Names, Names, Names, Names, Names]),
    said(Text, p/2, Sets, []).
test(many_wide_disjunctions) :-
    numlist(1, 14, Ns),
    findall(V, ( member(N, Ns), format(string(V), "X~d", [N]) ), Vs),
    atomic_list_concat(Vs, ', ', Names),
    findall(G, ( member(_, Ns), format(string(G), "( q(~w) -> r(~w) ; s(~w) )", [Names, Names, Names]) ), Gs0),
    append(Gs0, Gs0, Gs),
    atomic_list_concat(Gs, ', ', Goals),
    format(string(Text), "p(~w) :- ~w, p(~w).\n", [Names, Goals, Names]),
    is_open(Text, p/14).
test(deep_term) :-
    numlist(1, 2000, Ns),
    format(string(Text), "p(X) :- q(~w), p(X).\nq(_).\n", [Ns]),
    is_open(Text, p/1).
test(table_of_facts, Sets == [[]]) :-
    findall(Line, ( between(1, 20000, N), format(string(Line), "p(a~d, [b], \"x\").\n", [N]) ), Lines),
    atomics_to_string(Lines, Text),
    said(Text, p/3, Sets, []).
test(term_expansion) :-
    is_open("term_expansion(p(X), (p(X) :- p(X))).\np(_).\n", p/1).
test(term_expansion_with_a_module) :-
    is_open(":- module(m, []).\nuser:term_expansion(m:p(X), (p(X) :- p(X))).\nm:p(a).\n", p/1).
test(expansion_of_the_end) :-
    is_open("term_expansion(end_of_file, [(p(X) :- p(X)), end_of_file]).\np(a).\n", p/1).
test(directive_expansion) :-
    is_open("term_expansion((:- d(X)), (p(X) :- p(X))).\np(_).\n:- d(_).\n", p/1).
test(term_expansion_by_findall) :-
    is_open("term_expansion(p(X), Cs) :- findall((p(Y) :- p(Y)), member(Y, [X]), Cs).\np(a).\n", p/1).
test(term_expansion_by_findall_of_heads) :-
    is_open("term_expansion(p(x), Cs) :- findall(C, one(C), Cs).\none((p(X) :- p(X))).\np(x).\n", p/1).
test(term_expansion_by_maplist) :-
    is_open("term_expansion(p(x), Cs) :- L = [a], maplist(one, L, Cs).\none(_, (p(X) :- p(X))).\np(x).\n", p/1).
test(term_expansion_of_facts, Sets-Doubts == [[]]-[]) :-
    said("term_expansion(p(x), Cs) :- findall(p(Y), member(Y, [a, b]), Cs).\np(x).\nq(Y) :- p(Y).\n", q/1, Sets, Doubts).
test(plain_file) :-
    tmp_file(plain, Base),
    file_name_extension(Base, pl, File),
    setup_call_cleanup(open(File, write, Out), write(Out, "append(X, Y, Z) :- append(X, Y, Z).\n"), close(Out)),
    format(string(Text), ":- ensure_loaded('~w').\np(X) :- append([], [], X).\n", [File]),
    is_open(Text, p/1),
    delete_file(File).
test(module_that_exports_again) :-
    tmp_file(again, Base),
    file_name_extension(Base, pl, File),
    file_base_name(Base, Name0),
    atom_concat(inner, Name0, Inner),
    file_directory_name(File, Directory),
    directory_file_path(Directory, Inner, InnerBase),
    file_name_extension(InnerBase, pl, InnerFile),
    setup_call_cleanup(open(InnerFile, write, Out1),
                       format(Out1, ":- module(inner, [append/3]).~nappend(X, Y, Z) :- append(X, Y, Z).~n", []), close(Out1)),
    setup_call_cleanup(open(File, write, Out),
                       format(Out, ":- module(again, []).~n:- reexport('~w').~n", [InnerFile]), close(Out)),
    format(string(Text), ":- use_module('~w').\np(X) :- append([], [], X).\n", [File]),
    is_open(Text, p/1),
    delete_file(File),
    delete_file(InnerFile).
test(included_file) :-
    tmp_file(included, Base),
    file_name_extension(Base, pl, File),
    setup_call_cleanup(open(File, write, Out), write(Out, "p(X) :- p(X).\n"), close(Out)),
    format(string(Text), ":- include('~w').\nq(X) :- p(X).\n", [File]),
    is_open(Text, q/1),
    delete_file(File).
test(file_that_an_included_file_includes) :-
    tmp_file(directory, Directory),
    make_directory(Directory),
    directory_file_path(Directory, sub, Sub),
    make_directory(Sub),
    forall(member(Name-Text, [main-":- include('sub/a').\n", x-"p(a).\n", 'sub/a'-":- include(x).\n", 'sub/x'-"p(X) :- p(X).\n"]),
           ( directory_file_path(Directory, Name, Base),
             file_name_extension(Base, pl, File),
             setup_call_cleanup(open(File, write, Out), write(Out, Text), close(Out)) )),
    directory_file_path(Directory, 'main.pl', Main),
    cti_file_modes(Main, Modes, _),
    delete_directory_and_contents(Directory),
    Modes == [p/1-[]].
test(flags_of_an_included_file) :-
    tmp_file(included, Base),
    file_name_extension(Base, pl, File),
    setup_call_cleanup(open(File, write, Out), write(Out, ":- set_prolog_flag(double_quotes, codes).\n"), close(Out)),
    format(string(Text), ":- include('~w').\np(X) :- X = \"ab\", q(X).\nq([_|_]) :- q([a]).\nq(a).\n", [File]),
    is_open(Text, p/1),
    delete_file(File).

:- end_tests(covered).

:- begin_tests(assumed).

test(unknown_goal) :-
    is_assumed("p(G) :- call(G).\n", p/1, goal).
test(unknown_goal_in_data) :-
    is_assumed("p(X) :- G = p(X), call(G).\n", p/1, goal).
test(unknown_closure) :-
    is_assumed("p(G, L) :- maplist(G, L).\n", p/2, goal).
test(unknown_module) :-
    is_assumed("p(M) :- M:p(M).\n", p/1, goal).
test(not_defined) :-
    is_assumed("p(X) :- q(X).\n", p/1, external(q/1)).
test(transparent) :-
    is_assumed(":- module(m, [p/1]).\n:- module_transparent p/1.\np(X) :- call(q(X)).\nq(_).\n:- begin_tests(u).\n\
q(X) :- q(X).\ntest(a) :- p(a).\n:- end_tests(u).\n",
               plunit_u:test/1, transparent).
test(transparent_without_need, Doubts == []) :-
    said(":- module(m, [p/1]).\n:- module_transparent p/1.\np(X) :- context_module(M), ( q(X, M) -> true ; fail ).\nq(_, _).\n", p/1, [[]], Doubts).
test(other_file) :-
    is_assumed(":- use_module(no_such_file).\np(X) :- append(X, [a], X).\n", p/1, external(none:append/3)).
test(renamed_import) :-
    is_assumed(":- use_module(library(ugraphs), [vertices/2 as foo]).\n\
:- use_module(nowhere, [r/2 as append]).\np(X) :- append(X, X).\n",
               p/1, external(none:append/2)).
test(imported_predicate) :-
    is_assumed(":- module(m, []).\n:- import(other:append/3).\np(X) :- append([], [], X).\n", p/1, external(other:append/3)).
test(imported_module) :-
    is_assumed(":- module(m, []).\n:- add_import_module(m, other, start).\np(X) :- append([], [], X).\n", p/1, inherits).
test(import_of_what_is_not_known) :-
    is_assumed("p(X) :- import(X), append([], [], _).\n", p/1, risk(imports, import/1)).
test(clauses_of_what_is_imported) :-
    is_assumed(":- use_module(library(lists), [append/3]).\nappend(_, _, _).\np(X) :- append(_, X, _).\n", p/1, imported).
test(clauses_of_what_is_imported_under_the_name) :-
    is_assumed(":- use_module(library(lists), [append/3 as app]).\napp(_, _, _).\np(X) :- app(_, X, _).\n", p/1, imported).
test(module_that_is_not_there) :-
    is_assumed("bar(_).\np(X) :- foo:bar(X).\n", p/1, external(foo:bar/1)).
test(module_that_may_define_it) :-
    is_assumed("p(X) :- foo:between(1, 2, X).\n", p/1, external(foo:between/3)).
test(context_of_closures) :-
    is_assumed("q(_).\np(X) :- @(maplist(q, [X]), other).\n", p/1, goal).
test(closures_that_grow) :-
    is_assumed(":- meta_predicate r(0).\nr(G) :- call(G).\nr(G) :- r(s(G)).\ns(_).\nt(X) :- r(s(X)).\n", t/1, goal).
test(in_place) :-
    is_assumed("p(L) :- L = [_|T], setarg(2, T, [a, b, c]), p(T).\n", p/1, risk(place, setarg/3)).
test(in_place_by_a_callee) :-
    is_assumed("p(L) :- L = [_|T], r(T), p(T).\nr(T) :- nb_setarg(2, T, [a, b, c]).\n", p/1, risk(place, nb_setarg/3)).
test(waiting_goal) :-
    is_assumed("p(X) :- freeze(X, p(_)), X = a.\n", p/1, risk(waits, freeze/2)).
test(attributes) :-
    is_assumed("attr_unify_hook(_, _) :- p(_).\np(X) :- put_attr(X, user, a), X = b.\n", p/1, risk(waits, put_attr/3)).
test(when) :-
    is_assumed("p(X) :- when(nonvar(X), p(_)), X = a.\n", p/1, external(when:when/2)).
test(upper_bound) :-
    is_assumed("p(H) :- between(1, H, _), fail.\n", p/1, bound).
test(computed_bound, Doubts == []) :-
    said("p(H) :- N is H + 1, between(1, N, _), fail.\n", p/1, [[]], Doubts).
test(own_must_be) :-
    is_assumed("must_be(_, _).\np(H) :- must_be(integer, H), between(1, H, _), fail.\n", p/1, bound).
test(bound_of_a_type_that_is_not_known) :-
    is_assumed("p(T, H) :- must_be(T, H), between(1, H, _), fail.\n", p/2, bound).
test(bound_in_a_branch) :-
    is_assumed("p(H) :- ( a = b -> H is 3 ; true ), between(1, H, _), fail.\n", p/1, bound).
test(text) :-
    is_assumed("p(X) :- format(X, [p(X)]).\n", p/1, text).
test(text_that_runs) :-
    is_assumed("p(X) :- format(\"~@\", [p(X)]).\n", p/1, text).
test(message_that_runs) :-
    is_assumed("p(X) :- print_message(error, format(\"~@\", [p(X)])).\n", p/1, text).
test(unknown_message) :-
    is_assumed("p(X) :- M = format(\"~@\", [p(X)]), print_message(error, M).\n", p/1, text).
test(text_within_a_message) :-
    is_assumed("p(X) :- print_message(error, error(format(\"~@\", [user:p(X)]), _)).\n", p/1, text).
test(unknown_error) :-
    is_assumed("p(X) :- E = format(\"~@\", [user:p(X)]), print_message(error, error(E, _)).\n", p/1, text).
test(message_that_is_known, Doubts == []) :-
    said("p(X) :- print_message(error, error(type_error(integer, X), _)), print_message(error, own(X)).\n", p/1, [[]], Doubts).
test(lines_that_run) :-
    is_assumed("p(X) :- print_message_lines(user_error, '', ['~@'-[user:p(X)], nl]).\n", p/1, text).
test(own_letter) :-
    is_assumed(":- format_predicate(x, p(_, _)).\np(X, Y) :- p(X, Y).\nq(X) :- format(\"~x\", [X]).\n", q/1, letter).
test(own_function) :-
    is_assumed(":- use_module(library(arithmetic)).\n:- arithmetic_function(f/1).\nf(X, Y) :- Y is f(X).\n", f/2, function).
test(goal_expansion) :-
    is_assumed("goal_expansion(q(X), p(X)).\np(X) :- q(X).\nq(_).\n", p/1, rewritten).
test(goal_expansion_of_true) :-
    is_assumed("goal_expansion(true, loop).\nloop :- loop.\np(_) :- true.\n", p/1, rewritten).
test(goal_expansion_of_a_cut) :-
    is_assumed("goal_expansion(!, loop).\nloop :- loop.\np(_) :- !.\n", p/1, rewritten).
test(goal_expansion_of_a_disjunction) :-
    is_assumed("goal_expansion((_ ; _), loop).\nloop :- loop.\np(X) :- ( X = a ; X = b ).\n", p/1, rewritten).
test(goal_expansion_of_a_condition) :-
    is_assumed("goal_expansion((_ -> _), loop).\nloop :- loop.\np(X) :- ( X = a -> X = b ; X = c ).\n", p/1, rewritten).
test(goal_expansion_is_not_of_facts, Doubts == []) :-
    said("goal_expansion(X, X).\np(a).\n", p/1, [[]], Doubts).
test(unknown_term_expansion) :-
    is_assumed("term_expansion(p(X), C) :- make(X, C).\nmake(X, (p(X) :- p(X))).\np(_).\n", p/1, rewritten).
test(unknown_term_expansion_with_a_module) :-
    is_assumed(":- module(m, []).\nuser:term_expansion(m:p(X), C) :- make(X, C).\nmake(X, (p(X) :- p(X))).\nm:p(a).\n", p/1, rewritten).
test(term_expansion_of_a_list) :-
    is_assumed("term_expansion([X], (X :- X)).\np(b).\n[p(a)].\n", p/1, rewritten).
test(term_expansion_to_a_directive) :-
    is_assumed("term_expansion(p(x), (:- assertz((p(X) :- p(X))))).\n:- dynamic p/1.\np(x).\n", p/1, rewritten).
test(term_expansion_by_clauses_that_are_added) :-
    is_assumed("term_expansion(p(x), Cs) :- findall(C, one(C), Cs).\n:- dynamic one/1.\none(p(a)).\n\
:- assertz(one((p(X) :- p(X)))).\np(x).\n", p/1, rewritten).
test(term_expansion_that_is_rewritten_again) :-
    is_assumed("term_expansion(p(x), q(a)).\nuser:term_expansion(q(X), C) :- make(X, C).\nmake(_, (p(X) :- p(X))).\np(x).\n",
               p/1, rewritten).
test(multifile) :-
    is_assumed(":- multifile q/1.\nq(a).\np(X) :- q(X).\n", p/1, multifile).
test(undecided_condition) :-
    is_assumed(":- if(my_condition).\nappend(_, _, _).\n:- endif.\np(X) :- append(_, X, _).\n", p/1, conditional).
test(undecided_declaration) :-
    is_assumed(":- if(my_condition).\n:- meta_predicate p(:, ?).\n:- endif.\np(b:_, []).\np(f(_), [a]).\n\
w([_|T]) :- p(f(x), H), app(H, T, L), w(L).\napp([], L, L).\napp([H|T], L, [H|R]) :- app(T, L, R).\n",
               w/1, conditional).
test(condition_on_a_flag_that_the_file_makes) :-
    is_assumed(":- create_prolog_flag(mine, true, []).\n:- if(current_prolog_flag(mine, true)).\np(X) :- p(X).\n:- else.\np(a).\n:- endif.\n",
               p/1, conditional).
test(condition_on_a_flag_that_the_file_sets) :-
    is_assumed(":- set_prolog_flag(double_quotes, codes).\n:- if(current_prolog_flag(double_quotes, codes)).\n\
p(X) :- p(X).\n:- else.\np(a).\n:- endif.\n",
               p/1, conditional).
test(condition_on_a_flag_of_another_file) :-
    is_assumed(":- if(current_prolog_flag(no_such_flag, _)).\np(X) :- p(X).\n:- else.\np(a).\n:- endif.\n", p/1, conditional).
test(import_with_a_module) :-
    is_assumed(":- module(m, []).\n:- user:use_module(no_such_file).\np(X) :- append(X, [a], X).\n", p/1, external(none:append/3)).
test(import_within_a_directive) :-
    is_assumed(":- catch(use_module(no_such_file), _, true).\np(X) :- append(X, [a], X).\n", p/1, external(none:append/3)).
test(import_within_a_clause) :-
    tmp_file(plain, Base),
    file_name_extension(Base, pl, File),
    setup_call_cleanup(open(File, write, Out), write(Out, "append(X, Y, Z) :- append(X, Y, Z).\n"), close(Out)),
    format(string(Text), "p(X) :- ensure_loaded('~w'), append(X, [a], X).\n", [File]),
    is_assumed(Text, p/1, external(none:append/3)),
    delete_file(File).
test(flag_within_a_directive) :-
    is_assumed(":- catch(set_prolog_flag(double_quotes, codes), _, true).\np(X) :- X = \"ab\", q(X).\n\
q([_|_]) :- q([a]).\nq(a).\n", p/1, flags).
test(character_escapes) :-
    is_assumed(":- set_prolog_flag(character_escapes, false).\np(X) :- q('\\', X), p(X).\nq('a', ').\np(_).\nr(').\n", p/1, flags).
test(flag_within_a_clause) :-
    is_assumed("i :- set_prolog_flag(double_quotes, codes).\n:- i.\np(X) :- X = \"ab\", q(X).\n\
q([_|_]) :- q([a]).\nq(a).\n", p/1, flags).
test(moded_table) :-
    is_assumed(":- table p(_, max).\np(a, 0).\np(X, M) :- p(X, N), M is N + 1.\n", p/2, tabled).
test(abstract_table) :-
    is_assumed(":- table p/1 as subsumptive.\np(s(X)) :- p(X).\n", p/1, tabled).
test(unknown_clause) :-
    is_assumed(":- dynamic q/1.\nadd(C) :- assertz(C).\np(X) :- q(X).\n", p/1, adds).
test(unknown_clause_of_a_module) :-
    is_assumed(":- dynamic q/1.\nadd(M, X) :- M:assertz((q(X) :- q(X))).\np(X) :- q(X).\n", p/1, adds).
test(asserted_expansion) :-
    is_assumed(":- assertz(goal_expansion(q(X), p(X))).\np(X) :- q(X).\nq(_).\n", p/1, rewritten).
test(unknown_clause_by_closure) :-
    is_assumed(":- dynamic q/1.\nadd(C) :- maplist(assertz, C).\np(X) :- q(X).\n", p/1, adds).
test(unread_clause) :-
    is_assumed("p(a).\nq q q.\n", p/1, unread).
test(line_of_an_unread_clause, Lines == [3]) :-
    setup("p(a).\n\nq q q.\n", File),
    cti_file_modes(File, _, Assumptions),
    delete_file(File),
    findall(Line, member(assumed(Line, file, unread, _), Assumptions), Lines).
test(flag_within_a_clause_that_no_directive_calls, Doubts == []) :-
    said("i :- set_prolog_flag(double_quotes, codes).\n:- initialization(i).\np(_).\n", p/1, [[]], Doubts).
test(flag_within_a_clause_called_now) :-
    is_assumed("i :- set_prolog_flag(double_quotes, codes).\n:- initialization(i, now).\np(_).\n", p/1, flags).
test(chr) :-
    is_assumed(":- use_module(library(chr)).\n:- chr_constraint c/1.\nc(X) <=> c(X).\np(X) :- c(X).\n", p/1, external(c/1)).
test(dialect) :-
    is_assumed(":- expects_dialect(sicstus).\np(a).\n", p/1, dialect(sicstus)).
test(missing_include) :-
    is_assumed(":- include(no_such_file).\np(a).\n", p/1, include(no_such_file)).
test(continuation) :-
    is_assumed("p(X) :- reset(q(X), _, C), call(C).\nq(X) :- shift(a), p(X).\n", p/1, risk(runs, reset/3)).

:- end_tests(assumed).

:- begin_tests(answers).

test(reason, Reason == nothing_falls([call(1, p/1)])) :-
    reason_of("p(X) :- p(X).\n", p/1, Reason).
test(reason_of_a_caller, Reason == calls(2, p/1)) :-
    reason_of("p(X) :- p(X).\nq(X) :- ( a = b ; p(X) ).\n", q/1, Reason).
test(reason_of_need, Reason == needs([call(2, p/1, [[1]])])) :-
    reason_of("p([_|T]) :- p(T).\nq(X) :- p(_), X = a.\n", q/1, Reason).
test(kept, Count == 2) :-
    tmp_file(kept, Directory),
    make_directory(Directory),
    tmp_file(real, Base),
    file_name_extension(Base, pl, File),
    setup_call_cleanup(open(File, write, Out), write(Out, "p(a).\n"), close(Out)),
    cti_file_modes(File, [p/1-[[]]], [], [keep(Directory)]),
    directory_files(Directory, Files0),
    subtract(Files0, [., ..], Files),
    length(Files, Count),
    delete_directory_and_contents(Directory),
    delete_file(File).
test(missing_file, error(existence_error(_, _), _)) :-
    cti_file_modes('no such file', _, _).

reason_of(Text, Predicate, Reason) :-
    tmp_file(real, Base),
    file_name_extension(Base, pl, File),
    setup_call_cleanup(open(File, write, Out), write(Out, Text), close(Out)),
    cti_file_answer(File, Answer, []),
    delete_file(File),
    member(Found, Answer.predicates),
    _{name:Predicate, modes:[], reason:Reason} :< Found,
    !.

:- end_tests(answers).

:- begin_tests(builtins).

%   Each argument that is said to be atomic and not [] is so in each answer of
%   each query with arguments of these values.

value(a).
value("ab").
value(12).
value([]).
value([a]).
value([0'a]).
value(_).
value(f(x)).
value('a,b').
value(',').
value('1').
value(1).
value(-1).

test(results, [forall(named_result(Name, Arity, Places)), true]) :-
    \+ wrong_result(Name, Arity, Places, _).

named_result(Name, Arity, Places) :-
    clause(real_builtins:result_places(Pattern, Arity, Places), Body),
    (   nonvar(Pattern)
    ->  Name = Pattern
    ;   Body = memberchk(_, Names),
        member(Name, Names)
    ),
    \+ memberchk(Name, [open, working_directory, get_char, get_code, get_byte, peek_char, peek_code, peek_byte, read_string]).

wrong_result(Name, Arity, Places, Goal) :-
    length(Args, Arity),
    findall(V, value(V), Values0),
    (   Arity >= 4
    ->  length(Values, 8), append(Values, _, Values0)
    ;   Values = Values0
    ),
    chosen(Args, Values),
    Goal =.. [Name|Args],
    catch(call_with_inference_limit(findnsols(20, Args, system:Goal, Answers), 20000, Result), _, fail),
    Result \== inference_limit_exceeded,
    !,
    member(Answer, Answers),
    member(Place, Places),
    nth1(Place, Answer, Value),
    \+ ( atomic(Value), Value \== [] ).

chosen([], _).
chosen([X|Xs], Values) :-
    member(Value, Values),
    copy_term(Value, X),
    chosen(Xs, Values).

test(protected, [forall(member(PI, [findall/3, catch/3, length/2, call/3, (=)/2, (is)/2, atom/1, phrase/2]))]) :-
    PI = Name/Arity,
    functor(Goal, Name, Arity),
    real_builtins:is_protected(Goal).
test(not_protected, [forall(member(PI, [forall/2, ignore/1, between/3, succ/2, print_message/2, format/2])), fail]) :-
    PI = Name/Arity,
    functor(Goal, Name, Arity),
    real_builtins:is_protected(Goal).

:- end_tests(builtins).
