:- encoding(utf8).

% Tests that no file gets a mode that a query of it breaks. Run them at the top of the repository, once bin/cti is
% built:
%
%     CTI=bin/cti swipl -g run_tests -t halt swi/test_no_wrong_mode.pl

:- use_module(cti_file).
:- use_module(library(filesex)).
:- use_module(library(lists)).
:- use_module(library(plunit)).
:- use_module(library(process)).
:- use_module(library(readutil)).

%   with_file(+Text, -File, :Goal): Goal with a file of this text.

:- meta_predicate with_file(+, -, 0).

with_file(Text, File, Goal) :-
    tmp_file(real, Base),
    file_name_extension(Base, pl, File),
    setup_call_cleanup(
        setup_call_cleanup(open(File, write, Out, [encoding(utf8)]), write(Out, Text), close(Out)),
        Goal,
        delete_file(File)).

:- begin_tests(encodings).

% The script is run with other environments, as by cron or in a container.

script_output(Environment, File, Status, Output) :-
    module_property(cti_file, file(Module)),
    file_directory_name(Module, Directory),
    directory_file_path(Directory, 'cti-file', Script),
    getenv('PATH', Path),
    getenv('CTI', Cti0),
    absolute_file_name(Cti0, Cti),
    format(atom(PathSetting), "PATH=~w", [Path]),
    format(atom(CtiSetting), "CTI=~w", [Cti]),
    append(['-i', PathSetting, CtiSetting, 'HOME=/tmp'|Environment], [Script, File], Words),
    process_create(path(env), Words, [stdout(pipe(Out, [encoding(utf8)])), stderr(null), process(Process)]),
    call_cleanup(read_string(Out, _, Output), close(Out)),
    process_wait(Process, exit(Status)).

test(names_in_any_locale,
     [ forall(member(Environment, [[], ['LC_ALL=C'], ['LC_ALL=POSIX'], ['LC_ALL=C.UTF-8']])),
       true ]) :-
    with_file("größer(X) :- größer(X).\np(X) :- größer(X).\n\
'日本'([]).\n'日本'([_|T]) :- '日本'(T).\n", File,
              script_output(Environment, File, Status, Output)),
    Status == 0,
    has_text(Output, "no mode: calls größer/1 at 2:9, which has none"),
    \+ has_text(Output, "[[]]"),
    has_text(Output, "日本/1"),
    has_text(Output, "[[1]]").

has_text(Output, Text) :-
    once(sub_string(Output, _, _, _, Text)).

test(names_of_all_kinds, Sets == [[], [], [], [], []]) :-
    with_file("'a\\x1\\b\\n'(X) :- 'a\\x1\\b\\n'(X).\n😀(X) :- 😀(X).\n\
'\\u2028'(X) :- '\\u2028'(X).\n''(X) :- ''(X).\n\
'\\\\'(X) :- '\\\\'(X).\n", File,
              cti_file_modes(File, Modes, _)),
    findall(Set, member(_-Set, Modes), Sets).

%   A program in the place of cti whose certificate names no predicate.

test(predicate_that_the_certificate_does_not_name, error(cti_error(internal, _), _)) :-
    tmp_file(silent, Program),
    setup_call_cleanup(open(Program, write, Out), format(Out, "#!/bin/sh~nexit 0~n", []), close(Out)),
    chmod(Program, +x),
    getenv('CTI', Cti),
    setup_call_cleanup(setenv('CTI', Program),
                       with_file("p(a).\n", File, cti_file_modes(File, _, _, [check(false)])),
                       ( setenv('CTI', Cti), delete_file(Program) )).

:- end_tests(encodings).


:- begin_tests(no_wrong_mode).

%   answer(+Text, -Modes, -Assumptions)

answer(Text, Modes, Assumptions) :-
    with_file(Text, File, cti_file_modes(File, Modes, Assumptions, [check(false)])).

%   relies_on(+Predicate, +Assumptions, -Doubt): a mode of it rests on Doubt.

relies_on(Predicate, Assumptions, Doubt) :-
    member(assumed(_, _, Doubt, Dependents), Assumptions),
    memberchk(Predicate, Dependents).

test(case, [forall(case(_, Predicate, Kept, Text)), true]) :-
    answer(Text, Modes, Assumptions),
    memberchk(Predicate-Sets, Modes),
    (   Kept == no_mode
    ->  Sets == []
    ;   once(( relies_on(Predicate, Assumptions, Doubt0), plain_doubt(Doubt0, Kept) ))
    ).

plain_doubt(directive(Doubt), Doubt).
plain_doubt(Doubt, Doubt).

%   case(Name, Predicate, Kept, Text): a query of Predicate runs for ever in
%   SWI-Prolog, in some cases after another one. Kept is `no_mode`, or what the
%   file does not keep of what is assumed.

case(at_halt, p/0, no_mode,
     "p :- at_halt(l), halt.\n\
l :- l.\n").
case(atom_grow, p/0, risk(grows, current_atom/1),
     "p :- current_atom(A), atom_concat(A, x, B), nb_setval(B, 1), fail.\n\
p.\n").
case(cyclic2, q/1, cyclic,
     "q(X) :- Z = f(Z), q(X).\n").
case(cyclic3, q/1, cyclic,
     "q([X|_]) :- eq(Z, f(Z)), q([X]).\n\
eq(X, X).\n").
case(d_at_halt, p/0, halts,
     ":- at_halt(l).\n\
p :- halt.\n\
l :- l.\n").
case(d_aux_clauses, p/1, lasting(compile_aux_clauses),
     "p(a).\n\
:- compile_aux_clauses([(p(X) :- p(X))]).\n").
case(d_copy_clauses, q/1, lasting(copy_predicate_clauses),
     "l(X) :- q(X).\n\
:- dynamic q/1.\n\
:- copy_predicate_clauses(l/1, q/1).\n").
case(d_frozen, p/0, kept(nb_getval/2),
     ":- freeze(X, loop(X)), nb_setval(k, X).\n\
loop(X) :- loop(X).\n\
p :- nb_getval(k, Y), Y = a.\n").
case(d_listen_body, p/0, lasting(prolog_listen),
     ":- dynamic q/1.\n\
init :- prolog_listen(q/1, cb).\n\
p :- assertz(q(1)).\n\
cb(A, B) :- cb(A, B).\n").
case(d_listen_module, p/0, lasting(prolog_listen),
     ":- module(m, [p/0]).\n\
:- dynamic q/1.\n\
:- initialization(prolog_listen(q/1, cb)).\n\
p :- retractall(q(_)), assertz(q(1)).\n\
cb(A, B) :- cb(A, B).\n").
case(d_unknown_adds, r/1, adds,
     ":- dynamic q/1.\n\
cmd(assertz).\n\
:- cmd(C), call(C, (q(X) :- q(X))).\n\
r(X) :- q(X).\n").
case(d_wrap_body, p/1, lasting(wrap_predicate),
     ":- use_module(library(prolog_wrap)).\n\
p(X) :- q(X).\n\
q(_).\n\
init :- wrap_predicate(q(X), w, C, (loop(X), C)).\n\
loop(X) :- loop(X).\n").
case(exc_hook, p/0, hook(user:prolog_exception_hook/4),
     ":- multifile user:prolog_exception_hook/4.\n\
:- dynamic user:prolog_exception_hook/4.\n\
user:prolog_exception_hook(A, B, C, D) :- l(A, B, C, D).\n\
l(A, B, C, D) :- l(A, B, C, D).\n\
p :- X is foo + 1, write(X).\n").
case(format_W, p/0, text,
     "p :- format(\"~W\", [f(a), [portray_goal(pg)]]).\n\
pg(A, B) :- pg(A, B).\n").
case(functor_grow, p/0, risk(grows, current_functor/2),
     "p :- functor(_, kk, 1), current_functor(kk, A), B is A + 1, functor(_, kk, B), fail.\n\
p.\n").
case(lib_redef, p/1, no_mode,
     "p(X) :- must_be(integer, X).\n\
error:must_be(X, Y) :- error:must_be(X, Y).\n").
case(listen, p/0, lasting(prolog_listen),
     ":- dynamic q/1.\n\
p :- assertz(q(1)).\n\
:- prolog_listen(q/1, cb).\n\
cb(A, B) :- cb(A, B).\n").
case(nb_frozen, p/0, kept(nb_getval/2),
     "init :- freeze(X, loop(X)), nb_setval(k, X).\n\
loop(X) :- loop(X).\n\
p :- nb_getval(k, Y), Y = a.\n").
case(po, p/2, no_mode,
     ":- table p(_, po(j/2)).\n\
j(A, B) :- j(A, B).\n\
p(a, 1).\n\
p(a, 2).\n").
case(portray_goal, p/1, no_mode,
     "p(X) :- write_term(X, [portray_goal(pg)]).\n\
pg(_, _) :- pg(a, b).\n").
case(print2, p/0, text,
     "p :- print_message_lines(user_error, '', ['~W'-[f(a), [portray_goal(user:pg)]], nl]).\n\
pg(A, B) :- pg(A, B).\n").
case(quasi, p/0, quasi,
     ":- use_module(library(quasi_quotations)).\n\
:- quasi_quotation_syntax(foo).\n\
foo(A, B, C, D) :- foo(A, B, C, D).\n\
p :- term_to_atom(_, '{|foo||abc|}').\n").
case(quasi2, p/0, quasi,
     ":- module(mm, [p/0, foo/4]).\n\
:- use_module(library(quasi_quotations)).\n\
:- quasi_quotation_syntax(foo).\n\
foo(A, B, C, D) :- foo(A, B, C, D).\n\
p :- term_string(_, \"{|foo||abc|}\").\n").
case(set_base, p/1, inherits,
     ":- module(a, [p/1]).\n\
:- set_module(a:base(b)).\n\
b:succ_throw(_).\n\
b:plus(X, Y, Z) :- b:plus(X, Y, Z).\n\
p(X) :- plus(X, 1, _).\n").
case(thread_grow, p/0, risk(grows, thread_property/2),
     "p :- thread_property(T, status(_)), thread_create(true, _, []), T = a.\n\
p.\n").
case(unknown_adds, r/1, adds,
     ":- dynamic q/1.\n\
cmd(assertz).\n\
add :- cmd(C), call(C, (q(X) :- q(X))).\n\
r(X) :- q(X).\n").
case(wrap, p/1, lasting(wrap_predicate),
     ":- use_module(library(prolog_wrap)).\n\
p(X) :- q(X).\n\
q(_).\n\
:- wrap_predicate(q(X), w, C, (loop(X), C)).\n\
loop(X) :- loop(X).\n").
case(functors_grow_2, q/0, risk(grows, current_functor/2),
     "p :- current_functor(zork, N), M is N + 1, functor(_, zork, M), fail.\n\
p :- functor(_, zork, 1), p.\n\
q :- functor(_, zork, 1), current_functor(zork, N), M is N + 1, functor(_, zork, M), fail.\n").
case(cyclic, p/1, cyclic,
     "p(X) :- X = f(X), q(X).\n\
q(f(X)) :- q(X).\n").
case(at_halt_2, ath/0, no_mode,
     "trie :- trie_new(T), trie_insert(T, 0), trie_gen(T, K), K2 is K + 1, trie_insert(T, K2), fail.\n\
trie2 :- trie_new(T), trie_insert(T, a), trie_gen(T, K), trie_insert(T, f(K)), fail.\n\
thr :- thread_property(_, status(_)), thread_create(true, _, []), fail.\n\
mut :- mutex_create(_), mutex_property(_, _), mutex_create(_), fail.\n\
que :- message_queue_create(_), message_queue_property(_, size(_)), message_queue_create(_), fail.\n\
flag :- current_prolog_flag(F, _), atom_concat(F, x, G), create_prolog_flag(G, 1, []), fail.\n\
loop :- loop.\n\
ath :- at_halt(loop), halt.\n").
case(library_elsewhere, p/1, libraries,
     ":- prolog_load_context(directory, D), atom_concat(D, '/mylib', L), asserta(user:file_search_path(library, L)).\n\
:- use_module(library(lists)).\n\
p(X) :- member(X, [a]).\n").
case(exception_hook, p/1, no_mode,
     ":- multifile user:exception/3.\n\
:- dynamic user:exception/3.\n\
user:exception(undefined_global_variable, counter, retry) :- nb_getval(other, _).\n\
user:exception(undefined_global_variable, other, retry) :- nb_getval(counter, _).\n\
p(X) :- nb_getval(counter, X).\n").
case(listener, add/1, lasting(prolog_listen),
     ":- dynamic d/1.\n\
:- prolog_listen(d/1, changed).\n\
changed(A, C) :- changed(A, C).\n\
add(X) :- assertz(d(X)).\n").
case(listener_index, add/1, lasting(prolog_listen),
     ":- dynamic fact/1.\n\
:- prolog_listen(fact/1, updated).\n\
updated(assertz, Ref) :- clause(fact(X), true, Ref), assertz(fact(f(X))).\n\
updated(_, _).\n\
add(X) :- assertz(fact(X)).\n").
case(monotonic_table, add/1, lasting(monotonic),
     ":- table p/1 as monotonic.\n\
:- dynamic d/1 as monotonic.\n\
p(X) :- d(Y), loop(Y, X).\n\
loop(Y, X) :- loop(Y, X).\n\
add(X) :- assertz(d(X)).\n").
case(portray_goal_2, show/1, no_mode,
     "show(X) :- write_term(X, [portray_goal(pg), portray(true)]).\n\
pg(X, O) :- pg(X, O).\n").
case(portray_goal_module, show/1, no_mode,
     ":- module(pshow, [show/1]).\n\
show(X) :- write_term(X, [portray(true), portray_goal(show_term), max_depth(10)]).\n\
show_term(T, Opts) :- T = t(_, _), show_term(T, Opts).\n").
case(rational_syntax, r/1, flags,
     ":- set_prolog_flag(rational_syntax, natural).\n\
r(A) :- A = 1/3, B is A, r(B).\n").
case(flags_of_tabling, nat/1, tabled,
     ":- set_prolog_flag(max_table_subgoal_size_action, abstract).\n\
:- set_prolog_flag(max_table_subgoal_size, 3).\n\
:- table nat/1.\n\
nat(0).\n\
nat(s(X)) :- nat(X).\n").
case(at_exit, srv/0, no_mode,
     "loop :- loop.\n\
srv :- thread_create(true, Id, [at_exit(loop)]), thread_join(Id, _).\n").
case(exception_hook_2, p/0, no_mode,
     "user:unknown_predicate(_, _, error).\n\
:- multifile user:exception/3.\n\
user:exception(undefined_global_variable, K, retry) :- b_getval(K, _).\n\
p :- b_getval(zip, _).\n").
case(working_directory, p/1, no_mode,
     "p([H|T]) :- working_directory(_, [H|T]), p([H|T]).\n").
case(working_directory_2, visit/1, no_mode,
     "visit([]).\n\
visit(Path) :- Path = [_|_], working_directory(_, Path), next(Path, Path1), visit(Path1).\n\
next(P, P).\n").
case(wrapper, p/1, lasting(wrap_predicate),
     ":- use_module(library(prolog_wrap)).\n\
loop :- loop.\n\
p(1).\n\
:- wrap_predicate(p(_), t, W, (loop, W)).\n").
case(load_stream_body, p/0, lasting(load_files),
     "q(a).\n\
i :- open_string(\"q(X) :- q(X).\", S), load_files(user:foo, [stream(S)]).\n\
p :- q(a).\n").
case(swallow, p/1, flags,
     ":- prolog_load_context(stream, S), read(S, _).\n\
append(_, _, _).\n\
p(X) :- append(_, X, _), fail.\n").
case(assert_shadow, p/0, asserts,
     "c((append(X, Y, Z) :- append(X, Y, Z))).\n\
:- c(C), assertz(C).\n\
p :- append([], [], _).\n").
case(assert_shadow_body, p/0, shadows(append/3),
     "c((append(X, Y, Z) :- append(X, Y, Z))).\n\
i :- c(C), assertz(C).\n\
p :- append([], [], _).\n").
case(alarm, p/0, lasting(alarm),
     ":- use_module(library(time)).\n\
i :- alarm(0.2, l, _, [remove(true)]).\n\
l :- l.\n\
p :- sleep(1).\n").
case(string_assert, p/1, adds,
     ":- dynamic q/1.\n\
i :- term_to_atom(G, 'assertz((q(X) :- q(X)))'), call(G).\n\
p(X) :- q(X).\n").
case(exp_autoload, p/0, hook(user:term_expansion/2),
     "p :- pairs_keys([a-b], _).\n\
:- multifile user:term_expansion/2.\n\
:- dynamic user:term_expansion/2.\n\
user:term_expansion((:- module(pairs, _)), _) :- l.\n\
l :- l.\n").
case(open_source2, p/0, hook(prolog:open_source_hook/3),
     ":- multifile prolog:open_source_hook/3.\n\
prolog:open_source_hook(A, B, C) :- l(A, B, C).\n\
l(A, B, C) :- l(A, B, C).\n\
p :- pairs_keys([a-b], _).\n").
case(comment_hook, p/0, hook(prolog:comment_hook/3),
     ":- multifile prolog:comment_hook/3.\n\
prolog:comment_hook(A, B, C) :- l(A, B, C).\n\
l(A, B, C) :- l(A, B, C).\n\
p :- pairs_keys([a-b], _).\n").
case(rename_pred, p/0, hook(prolog:rename_predicate/2),
     ":- multifile prolog:rename_predicate/2.\n\
prolog:rename_predicate(A, B) :- l(A, B).\n\
l(A, B) :- l(A, B).\n\
p :- pairs_keys([a-b], _).\n").
case(undef_proc_builtin, p/0, hook(user:exception/3),
     ":- multifile user:exception/3.\n\
:- dynamic user:exception/3.\n\
user:exception(undefined_predicate, _, _) :- l.\n\
l :- l.\n\
q :- fail.\n\
p :- current_predicate(zork/0), fail.\n\
p :- pairs_keys([a-b], _).\n").
case(mod_import, p/0, lasting(import),
     ":- module(m, [p/0, i/0]).\n\
i :- M = n, M:export(M:append/3), import(M:append/3).\n\
n:append(X, Y, Z) :- n:append(X, Y, Z).\n\
p :- append([], [], _).\n").
case(redefine_call, p/0, no_mode,
     ":- catch(redefine_system_predicate(atom_length(_, _)), _, true).\n\
atom_length(X, Y) :- atom_length(X, Y).\n\
p :- atom_length(a, _).\n").
case(print_flag_body, p/0, options,
     "i :- set_prolog_flag(print_write_options, [portray(true), portray_goal(pg)]).\n\
p :- format(\"~p\", [f(x)]).\n\
pg(A, B) :- pg(A, B).\n").
case(print_flag_body2, p/0, options,
     "i :- F = print_write_options, set_prolog_flag(F, [portray(true), portray_goal(pg)]).\n\
p :- print(f(x)).\n\
pg(A, B) :- pg(A, B).\n").
case(opts_appended, p/0, options,
     "p :- append([portray_goal(pg)], [], O), write_term(f(x), O).\n\
pg(A, B) :- pg(A, B).\n").
case(opts_eq, p/0, no_mode,
     "p :- write_term(f(x), [portray_goal=pg]).\n\
pg(A, B) :- pg(A, B).\n").
case(opts_module, p/0, no_mode,
     ":- module(mm, [p/0]).\n\
p :- write_term(f(x), [quoted(true), portray_goal(mm:pg)]).\n\
pg(A, B) :- pg(A, B).\n").
case(at_exit_partial, p/0, options,
     "p :- q(T), thread_create(true, Id, [detached(false)|T]), thread_join(Id, _).\n\
q([at_exit(l)]).\n\
l :- l.\n").
case(format_star, p/0, text,
     "p :- format(\"~t~*|~@\", [10, l]).\n\
l :- l.\n").
case(format_backquote, p/0, text,
     "p :- format(\"~`-t~30|~@\", [l]).\n\
l :- l.\n").
case(format_codes, p/0, text,
     "p :- format([0'~, 0'@], [l]).\n\
l :- l.\n").
case(format_chars, p/0, text,
     "p :- format(['~', '@'], [l]).\n\
l :- l.\n").
case(format_atom_sink, p/0, text,
     "p :- format(atom(_), '~@', [l]).\n\
l :- l.\n").
case(msg_own_lines, p/0, text,
     ":- multifile prolog:message//1.\n\
prolog:message(foo) --> ['~@'-[user:l]].\n\
p :- print_message(error, foo).\n\
l :- l.\n").
case(msg_own_lines2, p/0, text,
     ":- multifile prolog:message//1.\n\
prolog:message(foo) --> { t(T) }, [T-[user:l]].\n\
t('~@').\n\
p :- print_message(error, foo).\n\
l :- l.\n").
case(init_listen, p/0, lasting(prolog_listen),
     ":- dynamic q/1.\n\
:- initialization(i).\n\
i :- prolog_listen(q/1, cb).\n\
cb(A, B) :- cb(A, B).\n\
p :- assertz(q(a)).\n").
case(dir_forall_assert, p/1, no_mode,
     ":- dynamic q/1.\n\
:- forall(member(X, [1, 2]), assertz((q(X) :- q(X)))).\n\
p(X) :- q(X).\n").
case(dir_maplist_assert, p/1, adds,
     ":- dynamic q/1.\n\
c((q(X) :- q(X))).\n\
:- findall(C, c(C), L), maplist(assertz, L).\n\
p(X) :- q(X).\n").
case(load_hook, p/0, hook(user:prolog_load_file/2),
     ":- multifile user:prolog_load_file/2.\n\
:- dynamic user:prolog_load_file/2.\n\
user:prolog_load_file(X, Y) :- l(X, Y).\n\
l(X, Y) :- l(X, Y).\n\
p :- sumlist([1], _), subtract([], [], _).\n").
case(msg_silent2, p/0, hook(user:message_hook/3),
     ":- multifile user:message_hook/3.\n\
:- dynamic user:message_hook/3.\n\
user:message_hook(_, silent, _) :- l.\n\
l :- l.\n\
p :- pairs_keys([a-b], _).\n").
case(msg_message2, p/0, hook(prolog:message/3),
     ":- multifile prolog:message//1.\n\
prolog:message(X) --> l(X).\n\
l(X) --> l(X).\n\
p :- pairs_keys([a-b], _).\n").
case(msg_property2, p/0, hook(user:message_property/2),
     ":- multifile user:message_property/2.\n\
user:message_property(silent, stream(_)) :- l.\n\
l :- l.\n\
p :- pairs_keys([a-b], _).\n").
case(search2, p/0, libraries,
     ":- multifile user:file_search_path/2.\n\
:- dynamic user:file_search_path/2.\n\
p :- pairs_keys([a-b], _).\n\
user:file_search_path(library, _) :- l.\n\
l :- l.\n").
case(search_assert, p/0, libraries,
     "i :- asserta((user:file_search_path(A, _) :- A == library, l)).\n\
p :- pairs_keys([a-b], _).\n\
l :- l.\n").
case(libdir, p/0, libraries,
     "i :- asserta((user:library_directory(_) :- l)).\n\
p :- pairs_keys([a-b], _).\n\
l :- l.\n").
case(exc_hook_assert, p/0, hook(user:prolog_exception_hook/4),
     "i :- asserta((user:prolog_exception_hook(_, _, _, _) :- l)).\n\
l :- l.\n\
p :- catch(atom_length(_, _), _, true).\n").
case(flag_create, p/1, no_mode,
     ":- create_prolog_flag(double_quotes, codes, []).\n\
p(X) :- X = \"ab\", q(X).\n\
q([_|_]) :- q([a]).\n\
q(a).\n").
case(flags_var_value, p/1, no_mode,
     "v(codes).\n\
:- v(V), set_prolog_flag(double_quotes, V).\n\
p(X) :- X = \"ab\", q(X).\n\
q([_|_]) :- q([a]).\n\
q(a).\n").
case(char_conv, p/0, flags,
     ":- set_prolog_flag(char_conversion, true).\n\
:- char_conversion(b, a).\n\
b :- a.\n\
p :- b.\n").
case(on_signal, p/0, lasting(on_signal),
     "i :- on_signal(usr1, _, h).\n\
h(S) :- h(S).\n\
p :- current_prolog_flag(pid, P), format(atom(C), \"kill -USR1 ~w\", [P]), shell(C), sleep(0.3), true.\n").
case(thread_init, p/0, lasting(thread_initialization),
     ":- thread_initialization(i).\n\
i :- thread_self(main), !.\n\
i :- i.\n\
p :- thread_create(true, Id), thread_join(Id).\n").
case(rec_frozen, p/0, kept(recorded/2),
     "i :- freeze(X, l(X)), recorda(k, X).\n\
l(X) :- l(X).\n\
p :- recorded(k, Y), Y = a.\n").
case(queue_frozen, p/0, kept(thread_peek_message/1),
     "i :- freeze(X, l(X)), thread_self(Me), thread_send_message(Me, X).\n\
l(X) :- l(X).\n\
p :- thread_peek_message(Y), Y = a.\n").
case(trie_frozen, p/0, kept(trie_gen/3),
     "i :- freeze(X, l(X)), trie_new(T), trie_insert(T, a, X), nb_setval(t, T).\n\
l(X) :- l(X).\n\
p :- nb_getval(t, T), trie_gen(T, a, Y), Y = a.\n").
case(on_error_halt, p/0, halts,
     ":- at_halt(l).\n\
:- set_prolog_flag(on_error, halt).\n\
l :- l.\n\
p :- print_message(error, format(\"x\", [])).\n").
case(table_lattice_call, p/1, no_mode,
     ":- table q(_, lattice(j(_, _, _))).\n\
q(a, 1).\n\
q(a, 2).\n\
j(A, B, C) :- j(A, B, C).\n\
p(X) :- q(a, X).\n").
case(table_module_lattice, p/1, no_mode,
     ":- table q(_, lattice(user:j/3)).\n\
q(a, 1).\n\
q(a, 2).\n\
j(A, B, C) :- j(A, B, C).\n\
p(X) :- q(a, X).\n").
case(attr_portray, p/0, no_mode,
     "p :- put_attr(X, mm, v), write_term(f(X), [attributes(portray)]).\n\
mm:attr_portray_hook(A, B) :- mm:attr_portray_hook(A, B).\n").
case(mod_base, p/0, lasting(set_module),
     ":- module(m, [p/0, i/0]).\n\
i :- B = base(n), set_module(m:B).\n\
n:forall(X, Y) :- n:forall(X, Y).\n\
p :- forall(a, b).\n\
a.\n\
b.\n").
case(wrap_system, p/0, lasting('$wrap_predicate'),
     "i :- '$wrap_predicate'(user:q, w, _, W, (l, W)).\n\
q.\n\
l :- l.\n\
p :- q.\n").
case(tflag_body, q/1, tabled,
     "i :- set_prolog_flag(max_table_subgoal_size_action, abstract), set_prolog_flag(max_table_subgoal_size, 3).\n\
:- table q/1.\n\
q(0).\n\
q(s(X)) :- q(X).\n").
case(tflag_var, q/1, tabled,
     "i :- member(F-V, [max_table_subgoal_size_action-abstract, max_table_subgoal_size-3]),\n\
set_prolog_flag(F, V), fail.\n\
i.\n\
:- table q/1.\n\
q(0).\n\
q(s(X)) :- q(X).\n").
case(cyc_if, p/1, cyclic,
     "p(X) :- ( X = f(X) -> p(X) ; true ).\n").
case(cyc_two, p/0, cyclic,
     "p :- q(X, f(X)), p.\n\
q(X, X).\n").
case(cyc_deep, p/0, cyclic,
     "p :- q(X, f(X)), p.\n\
q(X, Y) :- r(X, Y).\n\
r(X, X).\n").
case(grow_blob, p/0, risk(grows, current_blob/2),
     "p :- current_blob(B, text), atom_concat(B, x, C), nb_setval(C, 1), fail.\n").
case(mono2, p/0, lasting(monotonic),
     ":- dynamic([d/1], [monotonic(true)]).\n\
:- table t/1 as monotonic.\n\
t(X) :- d(Y), l(Y, X).\n\
l(Y, X) :- l(Y, X).\n\
p :- assertz(d(a)).\n").
case(mod_add_import, p/0, inherits,
     ":- module(m, [p/0, i/0]).\n\
i :- add_import_module(m, n, start).\n\
n:forall(X, Y) :- n:forall(X, Y).\n\
p :- forall(a, b).\n\
a.\n\
b.\n").
case(table_nested, p/0, no_mode,
     ":- catch(table(q(_, lattice(j/3))), _, true).\n\
q(a, 1).\n\
q(a, 2).\n\
j(A, B, C) :- j(A, B, C).\n\
p :- q(a, _).\n").
case(table_init, p/0, no_mode,
     ":- initialization(table(q(_, lattice(j/3))), now).\n\
q(a, 1).\n\
q(a, 2).\n\
j(A, B, C) :- j(A, B, C).\n\
p :- q(a, _).\n").
case(table_var_body, p/0, lasting(table),
     "d(q(_, lattice(j/3))).\n\
i :- d(D), table(D).\n\
q(a, 1).\n\
q(a, 2).\n\
j(A, B, C) :- j(A, B, C).\n\
p :- q(a, _).\n").
case(system_redefine, p/0, no_mode,
     ":- redefine_system_predicate(system:forall(_, _)).\n\
system:forall(X, Y) :- system:forall(X, Y).\n\
p :- forall(a, b).\n\
a.\n\
b.\n").
case(letter_listing, p/0, letter,
     ":- format_predicate(q, lw(_, _)).\n\
:- dynamic d/1.\n\
d(a).\n\
lw(A, B) :- lw(A, B).\n\
p :- listing(d/1).\n").
case(thread_signal_later, p/0, lasting(thread_signal),
     "i :- thread_self(M), thread_create((sleep(0.2), thread_signal(M, l)), _, [detached(true)]).\n\
l :- l.\n\
p :- sleep(1).\n").
case(version_msg, p/0, no_mode,
     ":- multifile prolog:version_msg/1.\n\
prolog:version_msg(X) :- prolog:version_msg(X).\n\
p :- version.\n").
case(string_to_goal_body, p/0, lasting(prolog_listen),
     ":- dynamic q/1.\n\
i :- term_to_atom(G, 'prolog_listen(q/1, cb)'), call(G).\n\
cb(A, B) :- cb(A, B).\n\
p :- assertz(q(1)).\n").
case(string_to_goal_dir, p/0, goal,
     ":- dynamic q/1.\n\
:- term_to_atom(G, 'prolog_listen(q/1, cb)'), call(G).\n\
cb(A, B) :- cb(A, B).\n\
p :- assertz(q(1)).\n").
case(dir_module, p/0, lasting(prolog_listen),
     ":- dynamic q/1.\n\
c(prolog_listen).\n\
:- user:(c(C), call(C, q/1, cb)).\n\
cb(A, B) :- cb(A, B).\n\
p :- assertz(q(1)).\n").
case(dir_query, p/0, lasting(prolog_listen),
     ":- dynamic q/1.\n\
?- prolog_listen(q/1, cb).\n\
cb(A, B) :- cb(A, B).\n\
p :- assertz(q(1)).\n").
case(dir_neg, p/1, asserts,
     ":- dynamic q/1.\n\
c((q(X) :- q(X))).\n\
:- \\+ ( c(C), \\+ assertz(C) ).\n\
p(X) :- q(X).\n").
case(dir_init_module, p/1, asserts,
     ":- module(m, [p/1]).\n\
:- dynamic q/1.\n\
c((q(X) :- q(X))).\n\
:- initialization(m:i).\n\
i :- c(C), assertz(C).\n\
p(X) :- q(X).\n").
case(dir_findall, p/1, asserts,
     "c((append(X, Y, Z) :- append(X, Y, Z))).\n\
:- findall(C, c(C), L), forall(member(C, L), assertz(C)).\n\
p(_) :- append([], [], _).\n").
case(dir_frozen_global, p/0, kept(nb_getval/2),
     ":- use_module(library(when)).\n\
:- when(nonvar(X), l(X)), nb_setval(k, X).\n\
l(X) :- l(X).\n\
p :- nb_getval(k, Y), Y = a.\n").
case(dir_attrs_global, p/0, kept(nb_current/2),
     ":- put_attrs(X, att(user, v, [])), nb_setval(k, X).\n\
attr_unify_hook(A, B) :- attr_unify_hook(A, B).\n\
p :- nb_current(k, Y), Y = a.\n").
case(dir_univ_attr, p/0, goal,
     ":- atom_concat(put, '_attr', N), G =.. [N, X, user, v], call(G), nb_setval(k, X).\n\
attr_unify_hook(A, B) :- attr_unify_hook(A, B).\n\
p :- nb_getval(k, Y), Y = a.\n").
case(lib_own_setting, p/0, asserts,
     "setting(A, B, C, D) :- assertz(A), B = C, C = D.\n\
:- dynamic q/1.\n\
:- setting((q(X) :- q(X)), b, b, b).\n\
p :- q(a).\n").
case(lib_own_listen, p/0, goal,
     "listen(A, B) :- c(A, C), call(C, B).\n\
c(a, prolog_listen(q/1)).\n\
:- dynamic q/1.\n\
:- listen(a, cb).\n\
cb(A, B) :- cb(A, B).\n\
p :- assertz(q(1)).\n").
case(asserta_hook, p/0, adds,
     ":- dynamic user:portray/1.\n\
i :- H = portray(_), asserta((user:H :- l)).\n\
l :- l.\n\
p :- print(a).\n").
case(asserta_hook_dir, p/0, asserts,
     "c((user:portray(_) :- l)).\n\
:- c(C), asserta(C).\n\
l :- l.\n\
p :- print(a).\n").
case(goalexp_unknown, p/0, asserts,
     "c((user:goal_expansion(q, l))).\n\
:- c(C), assertz(C).\n\
p :- q.\n\
q.\n\
l :- l.\n").
case(system_abolish, p/0, external(system:'$set_predicate_attribute'/3),
     ":- '$set_predicate_attribute'(system:ignore(_), system, false).\n\
system:ignore(X) :- system:ignore(X).\n\
p :- ignore(a).\n\
a.\n").
case(lib_hook_pairs, p/0, no_mode,
     "pairs:pairs_keys([], []) :- l.\n\
l :- l.\n\
p :- pairs_keys([], _).\n").
case(print_prefix, p/0, no_mode,
     ":- multifile prolog:message_prefix_hook/2.\n\
prolog:message_prefix_hook(A, B) :- prolog:message_prefix_hook(A, B).\n\
p :- print_message(error, format(\"x\", [])).\n").
case(autoload_before, p/1, imported,
     ":- append([], [], _).\n\
append(_, _, _).\n\
p(X) :- append(_, X, _), fail.\n").
case(autoload_before_init, p/1, imported,
     "q :- append([], [], _).\n\
:- q.\n\
append(_, _, _).\n\
p(X) :- append(_, X, _), fail.\n").
case(abolish_lib_dir, p/1, no_mode,
     "append(_, _, _).\n\
:- abolish(append/3).\n\
p(X) :- append(_, X, _), fail.\n").
case(abolish_lib_body, p/1, no_mode,
     "append(_, _, _).\n\
i :- abolish(append/3).\n\
p(X) :- append(_, X, _), fail.\n").
case(dyn_lib_nested, p/1, no_mode,
     ":- ( current_prolog_flag(bounded, true) -> dynamic(append/3) ; true ).\n\
p(X) :- append(_, X, _), fail.\n").
case(dyn_lib_body, p/1, no_mode,
     "i :- dynamic(append/3).\n\
p(X) :- append(_, X, _), fail.\n").
case(assert_lib_body, p/1, no_mode,
     "i :- assertz(append(a, a, a)).\n\
p(X) :- append(_, X, _), fail.\n").
case(builtin_asserted, p/0, no_mode,
     "i :- assertz(forall(_, _)).\n\
p :- forall(l, true).\n\
l :- l.\n").
case(builtin_dyn_body, p/0, no_mode,
     "i :- dynamic(ignore/1).\n\
p :- ignore(l).\n\
l :- l.\n").
case(unit_user, plunit_u:p/0, unit(u),
     ":- use_module(library(plunit)).\n\
:- begin_tests(u).\n\
append(_, _, _).\n\
:- end_tests(u).\n\
:- begin_tests(u).\n\
p :- append(_, [], _), fail.\n\
:- end_tests(u).\n").
case(lazy, p/0, kept(nb_getval/2),
     ":- use_module(library(lazy_lists)).\n\
i :- lazy_list(nx, 0, L), nb_setval(k, L).\n\
nx(_, _, _) :- l.\n\
l :- l.\n\
p :- nb_getval(k, L), L = [_|_].\n").
case(builtin_cond, p/0, conditional,
     ":- if(my_flag).\n\
forall(_, _).\n\
:- endif.\n\
p :- forall(l, true).\n\
l :- l.\n\
my_flag :- fail.\n").
case(block, p/0, no_mode,
     ":- expects_dialect(sicstus).\n\
:- block q(-).\n\
q(_) :- l.\n\
l :- l.\n\
p :- q(X), X = a.\n").
case(builtin_refused, p/0, no_mode,
     "findall(_, _, _).\n\
p :- findall(x, l, _).\n\
l :- l.\n").
case(flag_closure2, w/1, flags,
     ":- maplist(set_prolog_flag(double_quotes), [codes]).\n\
w([_|T]) :- app(\"ab\", T, L), w(L).\n\
app([], L, L).\n\
app([H|T], L, [H|R]) :- app(T, L, R).\n").
case(flag_phrase, w/1, flags,
     ":- foldl([F,V,V]>>set_prolog_flag(F,V), [double_quotes], codes, _).\n\
w([_|T]) :- app(\"ab\", T, L), w(L).\n\
app([], L, L).\n\
app([H|T], L, [H|R]) :- app(T, L, R).\n").
case(import_closure2, p/1, lasting(import),
     ":- module(m, [p/1]).\n\
n:append(X, Y, Z) :- n:append(X, Y, Z).\n\
c(n:append/3).\n\
:- forall(c(X), import(X)).\n\
p(X) :- append(X, [], _), fail.\n").
case(use_closure, p/1, external(system:consult/1),
     ":- tmp_file_stream(text, F, S), writeln(S, \"append(X,Y,Z) :- append(X,Y,Z).\"), close(S),\n\
maplist(consult, [F]).\n\
p(X) :- append(X, [], _), fail.\n").
case(redefine_var, p/0, lasting(redefine_system_predicate),
     ":- forall(member(P, [atom_length(_, _)]), redefine_system_predicate(P)).\n\
atom_length(X, Y) :- atom_length(X, Y).\n\
p :- atom_length(a, _).\n").
case(listen_closure, p/0, lasting(prolog_listen),
     ":- dynamic q/1.\n\
:- maplist(prolog_listen(q/1), [cb]).\n\
cb(A, B) :- cb(A, B).\n\
p :- assertz(q(1)).\n").
case(hook_by_name, p/0, asserts,
     "n(portray).\n\
:- n(N), H =.. [N, _], assertz((user:H :- l)).\n\
l :- l.\n\
p :- print(x).\n").
case(assert_closure, p/0, no_mode,
     ":- dynamic q/1.\n\
:- maplist([X]>>assertz((q(X) :- q(X))), [1]).\n\
p :- q(1).\n").
case(flag_closure, p/1, no_mode,
     ":- maplist(set_prolog_flag(double_quotes), [codes]).\n\
p(X) :- X = \"ab\", q(X).\n\
q(X) :- is_list(X), q(X).\n\
q(X) :- string(X).\n").
case(attributes_written, p/0, options,
     ":- set_prolog_flag(write_attributes, portray).\n\
p :- put_attr(X, mm, v), write(X).\n\
mm:attr_portray_hook(A, B) :- mm:attr_portray_hook(A, B).\n").
case(hook_that_asserts, p/1, no_mode,
     ":- dynamic q/1.\n\
:- multifile user:message_hook/3.\n\
user:message_hook(_, _, _) :- assertz((q(X) :- q(X))), fail.\n\
p(X) :- print_message(silent, x), q(X).\n").

:- end_tests(no_wrong_mode).

:- begin_tests(rules).

% Each built-in predicate of the running system that takes a goal is searched or
% doubted: where the goal runs for ever, the caller has no mode or an
% assumption.

takes_goal(Name/Arity, Specs) :-
    predicate_property(system:Goal, built_in),
    predicate_property(system:Goal, meta_predicate(Head)),
    Head =.. [Name|Specs],
    \+ sub_atom(Name, 0, _, _, $),
    length(Specs, Arity),
    once(( member(Spec, Specs), extra_arguments(Spec, _) )).

%   How many arguments are added to a goal.

extra_arguments(Spec, Count) :-
    nonvar(Spec),
    (   integer(Spec)
    ->  Count = Spec
    ;   Spec == (^)
    ->  Count = 0
    ;   Spec == (//)
    ->  Count = 2
    ).

goal_argument(Index, I, Spec, Argument) :-
    (   I == Index
    ->  Argument = loop
    ;   extra_arguments(Spec, _)
    ->  Argument = true
    ;   Argument = []
    ).

%   A goal with `loop` in the place Index, and the arity that loop is called with.

goal_with_loop(Name, Specs, Index, Goal, LoopArity) :-
    nth1(Index, Specs, Spec),
    extra_arguments(Spec, LoopArity),
    findall(Argument, ( nth1(I, Specs, S), goal_argument(Index, I, S, Argument) ), Arguments),
    Goal =.. [Name|Arguments].

test(goals_of_built_in_predicates,
     [ forall(( takes_goal(Name/_, Specs), goal_with_loop(Name, Specs, _, Goal, LoopArity) )),
       true ]) :-
    functor(Loop, loop, LoopArity),
    format(string(Text), "p :- ~q.~n~q :- ~q.~n", [Goal, Loop, Loop]),
    with_file(Text, File, cti_file_modes(File, Modes, Assumptions, [check(false)])),
    memberchk(p/0-Sets, Modes),
    (   Sets == []
    ->  true
    ;   Assumptions = [_|_]
    ).

% The same of options: SWI-Prolog's library has the types of those of its
% built-in predicates.

goal_option(PI, Option) :-
    option_declaration(Declaring, Options),
    member(Declared, Options),
    Declared =.. [Option, Type],
    (   Type == callable
    ;   nonvar(Type), Type = callable+_
    ),
    takes_options_of(PI, Declaring).

takes_options_of(PI, PI).
takes_options_of(PI, Declaring) :-
    option_declaration(PI, Options),
    memberchk(pass_to(system:Declaring, _), Options).

option_declaration(PI, Options) :-
    absolute_file_name(library(dialect/swi/syspred_options), File, [file_type(prolog), access(read)]),
    read_file_to_terms(File, Terms, [encoding(utf8)]),
    member((:- predicate_options(system:PI, _, Options)), Terms).

test(options_that_hold_goals) :-
    findall(PI-Option, goal_option(PI, Option), Pairs0),
    sort(Pairs0, Pairs),
    memberchk((write_term/2)-portray_goal, Pairs),
    memberchk((thread_create/3)-at_exit, Pairs),
    forall(member(PI-Option, Pairs), searched_option(PI, Option)).

searched_option(Name/Arity, Option) :-
    functor(Goal, Name, Arity),
    Term =.. [Option, _],
    (   real_builtins:option_list(Goal, _),
        real_builtins:option_goal(Term, _)
    ->  true
    ;   \+ real_builtins:is_quiet(system, Goal),
        \+ real_builtins:rewritten(system, Goal, _)
    ).

% What is quiet takes no goal, whatever stands in a table.

test(quiet_by_name, [forall(( real_builtins:quiet(system, Names), member(Name/Arity, Names) )), true]) :-
    functor(Goal, Name, Arity),
    \+ real_builtins:has_goal_argument(Goal).

% Flags of the running system are known by name, but for those that say what it
% is.

test(flags_known_by_name, Unknown == []) :-
    findall(Flag,
            ( current_prolog_flag(Flag, _),
              catch(( current_prolog_flag(Flag, Value), set_prolog_flag(Flag, Value) ), _, fail),
              real_builtins:flag_kind(Flag, running),
              \+ memberchk(Flag, [heartbeat, compile_meta_arguments, colon_sets_calling_context, portable_vmi]) ),
            Unknown0),
    sort(Unknown0, Unknown).

% Directives that only declare leave no assumption.

test(harmless_directives, Assumptions == []) :-
    with_file(":- module(m, [p/1]).\n:- use_module(library(lists)).\n:- autoload(library(apply), [maplist/2]).\n\
:- use_foreign_library(foreign(process)).\n:- dynamic d/1.\n:- discontiguous p/1.\n:- meta_predicate q(0).\n\
:- op(700, xfx, ===>).\n:- set_prolog_flag(generate_debug_info, false).\n:- set_prolog_flag(my_own, 1).\n\
:- create_prolog_flag(my_flag, true, [keep(true)]).\n:- set_prolog_flag(double_quotes, codes).\n\
:- style_check(-singleton).\n:- license(gpl).\n:- initialization(main, main).\n\
:- predicate_options(p/1, 1, [a(integer)]).\n:- use_module(library(settings)).\n\
:- setting(a, integer, 1, 'A').\n:- debug(x).\n:- nb_setval(k, 1).\n:- assertz(d(1)).\n\
:- retractall(d(2)).\n:- format(\"loading~n\").\n:- public p/1.\n:- table t/1.\nt(_).\n\
p([]).\np([_|T]) :- p(T).\nq(_).\nmain :- current_prolog_flag(argv, A), go(A).\ngo(A) :- call(A).\n",
              File, cti_file_modes(File, Modes, Assumptions0, [check(false)])),
    memberchk(p/1-[[1]], Modes),
    findall(Assumption,
            ( member(Assumption, Assumptions0), Assumption = assumed(_, _, _, Dependents), memberchk(p/1, Dependents) ),
            Assumptions).
test(options_that_are_known, Assumptions == []) :-
    with_file("p(X) :- write_term(X, [quoted(true), max_depth(3)]),\n\
format(\"~a ~W~n\", [a, X, [quoted(true)]]).\n", File,
              cti_file_modes(File, [p/1-[[]]], Assumptions, [check(false)])).
test(hook_that_ends, Assumptions == []) :-
    with_file(":- multifile user:message_hook/3.\n\
user:message_hook(T, K, _) :- K == silent, T = x.\np(a).\n", File,
              cti_file_modes(File, Modes, Assumptions0, [check(false)])),
    memberchk(p/1-[[]], Modes),
    findall(Assumption,
            ( member(Assumption, Assumptions0), Assumption = assumed(_, _, _, Dependents), memberchk(p/1, Dependents) ),
            Assumptions).

:- end_tests(rules).
