:- module(real_builtins,
          [ is_protected/1,             % +Goal
            rewritten/3,                % +Where, +Goal, -Goal
            never_succeeds/2,           % +Where, +Goal
            results/3,                  % +Where, +Goal, -Results
            is_quiet/2,                 % +Where, +Goal
            risk/2,                     % +Name/Arity, -Risk
            has_goal_argument/1,        % +Goal
            option_list/2,              % +Goal, -Options
            option_goal/2,              % ?Option, -Goal
            reads_terms/2,              % +Where, +Name/Arity
            keeps_terms/1,              % +Name/Arity
            runs_later/2,               % +Where, +Name/Arity
            declares_what_it_names/1,   % +Name/Arity
            is_harmless_directive/1,    % +Goal
            is_harmless_name/1,         % +Name/Arity
            flag_kind/2,                % +Flag, -Kind
            runs_goal/1,                % +Codes
            is_hook/1,                  % +Predicate
            options_in_text/3,          % +Codes, +Arguments, -Options
            hooks/2,                    % +Name/Arity, -Hooks
            is_read_library/1           % ?Module
          ]).

/** <module> What is said of SWI-Prolog's own predicates

Where is `system` for what is built in, and else the module of SWI-Prolog's
library that exports the predicate. docs/real-files.md has the table with
the argument for each group.
*/

%!  is_protected(+Goal) is semidet.
%
%   No file can define a predicate with Goal's name and arity.

is_protected(Goal) :-
    predicate_property(system:Goal, iso),
    !.
is_protected(Goal) :-
    functor(Goal, Name, Arity),
    memberchk(Name/Arity, [(',')/2, (;)/2, (->)/2, (*->)/2, '|'/2, (\+)/1, !/0, (:)/2]).

%!  rewritten(+Where, +Goal, -Covering) is semidet.
%
%   Covering has, for each answer of Goal, an answer that is as general, and
%   makes each call that Goal makes, with arguments as general. It is built
%   by (,)/2, (;)/2, true and (=)/2 of
%
%     - goal(G): a goal of the file;
%     - hooks(G): the hooks that the built-in goal G may call;
%     - find(R): the search of all answers of R, none of which stays;
%     - options(Options): the goals that a list of options holds;
%     - prelude(G): a goal of real_goals' own predicates;
%     - text(L, T): L is a list of codes or characters, and then T;
%     - result(X): X is atomic, and not [].

rewritten(system, G, R) :- rewritten_system(G, R).
rewritten(aggregate, G, R) :- rewritten_aggregate(G, R).
rewritten(solution_sequences, G, R) :- rewritten_sequence(G, R).
rewritten(prolog_debug, assertion(G), ( find(goal(G)), hooks(assertion(G)) )).
rewritten(time, call_with_time_limit(_, G), goal(G)).
rewritten(time, call_with_time_limit(_, G, _), goal(G)).
rewritten(sort, predsort(P, L, S), R) :- sorted_by(P, L, S, R).
rewritten(lists, list_to_set(L, S), prelude(sort(L, S))).
rewritten(lists, memberchk(X, L), prelude(member(X, L))).
rewritten(lists, nth0(I, L, X), prelude(nth(I, L, X))).
rewritten(lists, nth1(I, L, X), prelude(nth(I, L, X))).
rewritten(lists, permutation(L, P), prelude(permute(L, P))).
rewritten(assoc, get_assoc(K, T, V), prelude(get_assoc(K, T, V))).
rewritten(ordsets, list_to_ord_set(L, S), prelude(sort(L, S))).
rewritten(apply, forall(A, B), find(goal((A, B)))).

rewritten_system(not(G), find(goal(G))).
rewritten_system(\+ G, find(goal(G))).
rewritten_system(forall(A, B), find(goal((A, B)))).
rewritten_system(once(G), goal(G)).
rewritten_system(ignore(G), (goal(G) ; true)).
rewritten_system(call(G), goal(G)).
rewritten_system(apply(G, Xs), goal(R)) :-
    is_list(Xs),
    R =.. [call, G|Xs].
rewritten_system(catch(G, _, R), (goal(G) ; goal(R))).
rewritten_system(catch_with_backtrace(G, _, R), (goal(G) ; goal(R))).
rewritten_system(call_cleanup(G, C), ( find(goal(C)), goal(G) )).
rewritten_system(call_cleanup(G, _, C), ( find(goal(C)), goal(G) )).
rewritten_system(setup_call_cleanup(S, G, C), ( goal(S), find(goal(C)), goal(G) )).
rewritten_system(setup_call_catcher_cleanup(S, G, _, C), ( goal(S), find(goal(C)), goal(G) )).
rewritten_system(findall(_, G, _), find(goal(G))).
rewritten_system(findall(_, G, _, _), find(goal(G))).
rewritten_system(findnsols(_, _, G, _), find(goal(G))).
rewritten_system(findnsols(_, _, G, _, _), find(goal(G))).
rewritten_system(bagof(_, G, _), find(goal(R))) :- without_hats(G, R).
rewritten_system(setof(_, G, _), find(goal(R))) :- without_hats(G, R).
rewritten_system(with_output_to(Sink, G), ( goal(G), R )) :- sink(Sink, R).
rewritten_system(with_mutex(_, G), goal(G)).
rewritten_system(with_tty_raw(G), goal(G)).
rewritten_system(notrace(G), goal(G)).
rewritten_system(sig_atomic(G), goal(G)).
rewritten_system(thread_idle(G, _), goal(G)).
rewritten_system(snapshot(G), goal(G)).
rewritten_system(transaction(G), goal(G)).
rewritten_system(call_residue_vars(G, _), goal(G)).
rewritten_system(call_with_depth_limit(G, _, _), (goal(G) ; true)).
rewritten_system(call_with_inference_limit(G, _, _), (goal(G) ; true)).
rewritten_system(thread_create(G, _), find(goal(G))).
rewritten_system(thread_create(G, _, Options), ( find(goal(G)), options(Options) )).
rewritten_system(at_halt(G), find(goal(G))).
rewritten_system(msort(L, S), prelude(permute(L, S))).
rewritten_system(keysort(L, S), prelude(permute(L, S))).
rewritten_system(sort(L, S), prelude(sort(L, S))).
rewritten_system(sort(_, _, L, S), prelude(sort(L, S))).
rewritten_system(predsort(P, L, S), R) :- sorted_by(P, L, S, R).
rewritten_system(memberchk(X, L), prelude(member(X, L))).
rewritten_system(length(L, N), R) :-
    (   integer(N), N >= 0, N =< 100
    ->  length(Vs, N),
        R = (L = Vs)
    ;   R = prelude(length(L, N))
    ).
rewritten_system(T =.. L, R) :- made_term(T, L, R).
rewritten_system(compound_name_arguments(T, F, Xs), R) :- made_compound(T, F, Xs, R).
rewritten_system(repeat, prelude(repeat)).
rewritten_system(A = B, A = B).
rewritten_system(unify_with_occurs_check(A, B), A = B).
rewritten_system(A == B, A = B).
rewritten_system(same_term(A, B), A = B).
rewritten_system(atomic(X), prelude(atomic(X))).
rewritten_system(phrase(B, L), R) :- phrase_goal(B, L, [], R).
rewritten_system(phrase(B, L, E), R) :- phrase_goal(B, L, E, R).
rewritten_system(call_dcg(B, L, E), R) :- phrase_goal(B, L, E, R).
rewritten_system(format(Sink, Text, Arguments), ( goal(system:format(Text, Arguments)), R )) :-
    nonvar(Sink),
    sink_goal(Sink, R).

sink(Sink, R) :-
    (   nonvar(Sink), sink_goal(Sink, R0)
    ->  R = R0
    ;   R = true
    ).

sink_goal(atom(X), result(X)).
sink_goal(string(X), result(X)).
sink_goal(codes(L), text(L, [])).
sink_goal(codes(L, T), text(L, T)).
sink_goal(chars(L), text(L, [])).
sink_goal(chars(L, T), text(L, T)).

%   made_term(+Term, +List, -Covering): Term =.. List, where the name is known,
%   or the term is.

made_term(T, L, R) :-
    nonvar(T),
    !,
    compound(T),
    compound_name_arguments(T, _, Xs),
    nonvar(L),
    L = [_|Ys],
    R = (Xs = Ys).
made_term(T, L, T = Made) :-
    is_list(L),
    L = [F|Xs],
    atom(F),
    Xs = [_|_],
    Made =.. L.

made_compound(T, F, Xs, R) :-
    (   nonvar(T)
    ->  compound(T),
        compound_name_arguments(T, _, Ys),
        R = (Xs = Ys)
    ;   is_list(Xs),
        Xs = [_|_],
        atom(F),
        compound_name_arguments(Made, F, Xs),
        R = (T = Made)
    ).

sorted_by(P, L, S,
          ( find((prelude(member(X, L)), prelude(member(Y, L)), goal(call(P, _, X, Y)))), prelude(sort(L, S)) )).

phrase_goal(Body, _, _, _) :-
    var(Body),
    !,
    fail.
phrase_goal('$closure'(M, Body), List, End, R) :-
    !,
    phrase_goal(M:Body, List, End, R).
phrase_goal(M:Body, List, End, goal(M:phrase(Body, List, End))) :-
    !,
    atom(M),
    nonvar(Body).
phrase_goal(Body, List, End, (List = S0, End = S, goal(Goal))) :-
    catch(dcg_translate_rule((x --> Body), (x(S0, S) :- Goal)), _, fail),
    \+ ( nonvar(Goal), functor(Goal, phrase, _) ).

without_hats(G, G) :-
    var(G),
    !.
without_hats(_^G, R) :-
    !,
    without_hats(G, R).
without_hats(M:G0, R) :-
    nonvar(G0),
    G0 = _^_,
    !,
    without_hats(G0, G),
    R = M:G.
without_hats(G, G).

rewritten_aggregate(aggregate_all(Count, G, C), ( find(goal(G)), result(C) )) :-
    Count == count,
    !.
rewritten_aggregate(aggregate_all(_, G, _), find(goal(R))) :- without_hats(G, R).
rewritten_aggregate(aggregate_all(_, _, G, _), find(goal(R))) :- without_hats(G, R).
rewritten_aggregate(aggregate(_, G, _), find(goal(R))) :- without_hats(G, R).
rewritten_aggregate(aggregate(_, _, G, _), find(goal(R))) :- without_hats(G, R).
rewritten_aggregate(foreach(A, B), find(goal((A, B)))).

rewritten_sequence(limit(_, G), goal(G)).
rewritten_sequence(offset(_, G), goal(G)).
rewritten_sequence(call_nth(G, N), ( goal(G), result(N) )).
rewritten_sequence(order_by(_, G), goal(G)).
rewritten_sequence(distinct(G), goal(G)).
rewritten_sequence(distinct(_, G), goal(G)).
rewritten_sequence(reduced(G), goal(G)).
rewritten_sequence(reduced(_, _, G), goal(G)).

%!  never_succeeds(+Where, +Goal) is semidet.

never_succeeds(system, Goal) :-
    functor(Goal, Name, Arity),
    memberchk(Name/Arity, [fail/0, false/0, halt/0, halt/1, throw/1, abort/0, prolog_abort/0, thread_exit/1]).
never_succeeds(error, Goal) :-
    functor(Goal, Name, Arity),
    memberchk(Name/Arity,
              [ type_error/2, domain_error/2, existence_error/2, existence_error/3, permission_error/3,
                instantiation_error/1, uninstantiation_error/1, representation_error/1, syntax_error/1,
                resource_error/1 ]).

%!  results(+Where, +Goal, -Results) is semidet.
%
%   Results are the arguments that are atomic and not [] in each answer.

results(Where, Goal, Results) :-
    functor(Goal, Name, Arity),
    (   Where == system
    ->  result_places(Name, Arity, Places)
    ;   library_places(Where, Name, Arity, Places)
    ),
    !,
    places(Places, Goal, Results).

places([], _, []).
places([I|Is], Goal, [X|Xs]) :-
    arg(I, Goal, X),
    places(Is, Goal, Xs).

result_places(Name, 1, [1]) :-
    memberchk(Name, [atom, integer, float, number, string, rational, get_time, get_char, peek_char, get_code, peek_code,
                     get_byte, peek_byte, is_stream, thread_self, current_input, current_output]).
result_places(Name, 2, [1]) :-
    memberchk(Name, [is, atom_codes, atom_chars, number_codes, number_chars, number_string, working_directory]).
result_places(Name, 2, [2]) :-
    memberchk(Name, [get_char, peek_char, get_code, peek_code, get_byte, peek_byte, atomic_list_concat, string_length,
                     atom_length, atom_number, upcase_atom, downcase_atom, string_upper, string_lower,
                     line_count, line_position, character_count, byte_count, file_base_name, file_directory_name,
                     getenv, size_file, time_file, variant_sha1, variant_hash]).
result_places(Name, 2, [1, 2]) :-
    memberchk(Name, [succ, char_code]).
result_places(plus, 3, [1, 2, 3]).
result_places(Name, 3, [3]) :-
    memberchk(Name, [atom_concat, string_concat, atomic_list_concat, get_string_code]).
result_places(open, 3, [3]).
result_places(open, 4, [3]).
result_places(functor, 3, [3]).
result_places(compound_name_arity, 3, [3]).
result_places(Name, 5, [2, 3, 4, 5]) :-
    memberchk(Name, [sub_atom, sub_string]).
result_places(arg, 3, [1]).
result_places(compare, 3, [1]).
result_places(read_string, 3, [3]).
result_places(read_string, 5, [4, 5]).
result_places(flag, 3, [2]).
result_places(divmod, 4, [1, 2, 3, 4]).
result_places(nth_integer_root_and_remainder, 4, [1, 2, 3, 4]).

library_places(read_util, read_line_to_string, 2, [2]).
library_places(read_util, read_stream_to_string, 2, [2]).
library_places(random, random, 1, [1]).
library_places(random, random_between, 3, [1, 2, 3]).
library_places(random, random, 3, [1, 2, 3]).
library_places(gensym, gensym, 2, [2]).
library_places(backward_compatibility, concat_atom, 2, [2]).
library_places(backward_compatibility, concat_atom, 3, [3]).
library_places(lists, numlist, 3, [1, 2]).

%!  is_quiet(+Where, +Goal) is semidet.
%
%   Goal's predicate ends, calls no predicate of the file, changes no term in
%   place and leaves no goal waiting; what it binds is left out. The goals of
%   options, and those that read, print or go on are looked for elsewhere. A
%   predicate of which the system says that an argument is a goal never is
%   quiet; where another argument takes its module along, it is so by name.

is_quiet(system, Goal) :-
    functor(Goal, Name, Arity),
    \+ risk(Name/Arity, _),
    predicate_property(system:Goal, built_in),
    \+ has_goal_argument(Goal),
    (   quiet(system, Names),
        memberchk(Name/Arity, Names)
    ->  true
    ;   \+ sub_atom(Name, 0, _, _, $),
        \+ predicate_property(system:Goal, transparent)
    ),
    !.
is_quiet(Where, Goal) :-
    Where \== system,
    functor(Goal, Name, Arity),
    quiet(Where, Names),
    memberchk(Name/Arity, Names),
    !.

%!  has_goal_argument(+Goal) is semidet.
%
%   The running system says that the built-in predicate of Goal takes a goal.

has_goal_argument(Goal) :-
    predicate_property(system:Goal, meta_predicate(Head)),
    arg(_, Head, Spec),
    (   integer(Spec)
    ;   memberchk(Spec, [^, //])
    ),
    !.

quiet(system,
      [ assert/1, assert/2, asserta/1, asserta/2, assertz/1, assertz/2, retract/1, retractall/1, clause/2, clause/3,
        nth_clause/3, abolish/1, abolish/2, context_module/1, current_format_predicate/2, current_op/3,
        current_predicate/1, current_predicate/2, current_table/2, op/3, predicate_property/2, set_module/1,
        source_file/2, strip_module/3, write_term/2, write_term/3, (dynamic)/1, (dynamic)/2, (discontiguous)/1,
        (multifile)/1, (public)/1, (volatile)/1, export/1, prolog_frame_attribute/3, dwim_predicate/2,
        abolish_table_subgoals/1, '$skip_list'/3, '$set_source_module'/1, '$set_source_module'/2,
        '$current_source_module'/1, '$current_typein_module'/1, '$seek_list'/4, '$btree_find_node'/5,
        format/1, format/2, format/3 ]).
quiet(error, [must_be/2, is_of_type/2, is_list_or_partial/1]).
quiet(prolog_debug, [debug/1, debug/3, nodebug/1, debugging/1, debugging/2, debug_message_context/1]).
quiet(gensym, [gensym/2, reset_gensym/1, reset_gensym/0]).
quiet(read_util,
      [ read_line_to_string/2, read_line_to_codes/2, read_line_to_codes/3, read_stream_to_codes/2,
        read_stream_to_codes/3, read_term_from_atom/3, read_file_to_codes/3, read_file_to_string/3,
        read_file_to_terms/3 ]).
quiet(random, [random/1, random_between/3, random/3, set_random/1, random_member/2, random_permutation/2]).
quiet(lists, [numlist/3]).
quiet(backward_compatibility, [concat_atom/2, concat_atom/3]).
quiet(dif, [dif/2]).
quiet(date, [parse_time/2, parse_time/3, date_time_value/3]).
quiet(prolog_listing, [portray_clause/1, portray_clause/2, listing/0, listing/1]).
quiet(ansi_term, [ansi_format/3]).
quiet(terms, [term_size/2, variant/2, subsumes_chk/2, cyclic_term/1, acyclic_term/1]).

%!  risk(+PI, -Risk) is semidet.
%
%   Why a built-in predicate is assumed to behave, and not covered.

risk(PI, place) :-
    memberchk(PI, [setarg/3, nb_setarg/3, nb_linkarg/3, nb_linkval/2, b_set_dict/3, nb_set_dict/3, nb_link_dict/3]).
risk(PI, waits) :-
    memberchk(PI, [freeze/2, put_attr/3, put_attrs/2, when/2]).
risk(PI, imports) :-
    memberchk(PI, [import/1, add_import_module/3, set_base_module/1]).
risk(PI, grows) :-
    memberchk(PI, [current_atom/1, current_blob/2, current_functor/2, thread_property/2]).
risk(PI, runs) :-
    memberchk(PI,
              [ frozen/2, call_continuation/1, shift/1, shift_for_copy/1, reset/3, engine_next/2,
                engine_next_reified/2, engine_post/2, engine_post/3, engine_yield/1, engine_fetch/1, prolog/0,
                break/0, '<meta-call>'/1, tabled_call/1, expand_goal/2, expand_goal/4, expand_term/2, expand_term/4,
                compile_aux_clauses/1, copy_predicate_clauses/2, unload_file/1, initialize/0, '.'/3,
                start_subsumptive_tabling/3, prolog_alert_signal/2, format_predicate/2, thread_signal/2, profiler/2,
                read_term_with_history/2, wait_for_input/3, prolog_interrupt/0, copy_term/3, copy_term/4, undo/1,
                transaction/2, transaction/3, transaction_updates/1, thread_get_message/1, thread_get_message/2,
                thread_get_message/3, get/3, get_dict/5, message_queue_create/3, tnot/1 ]).

%!  option_list(+Goal, -Options) is semidet.
%
%   Options is an argument of the built-in Goal that is a list of options, of
%   which some may hold a goal: see option_goal/2.

option_list(write_term(_, Options), Options).
option_list(write_term(_, _, Options), Options).
option_list(write_length(_, _, Options), Options).
option_list(term_string(_, _, Options), Options).
option_list(thread_create(_, _, Options), Options).

%!  option_goal(?Option, -Goal) is semidet.
%
%   Option is one that holds a goal, and has Goal called.

option_goal(portray_goal(G), call(G, _, _)).
option_goal(at_exit(G), G).

%!  runs_goal(+Codes) is semidet.
%
%   A text of format/2 with a letter that calls a goal, or may: ~@ and ~W. Before
%   the letter may be a number, a star, or a backquote with a character, and a
%   colon.

runs_goal([0'~|Codes0]) :-
    !,
    letter_after(Codes0, Letter, Codes),
    (   memberchk(Letter, [0'@, 0'W])
    ->  true
    ;   runs_goal(Codes)
    ).
runs_goal([_|Codes]) :-
    runs_goal(Codes).

letter_after([0'`, _|Codes0], Letter, Codes) :-
    !,
    letter_after(Codes0, Letter, Codes).
letter_after([Code|Codes0], Letter, Codes) :-
    (   ( code_type(Code, digit) ; memberchk(Code, `*:`) )
    ->  letter_after(Codes0, Letter, Codes)
    ;   Letter = Code, Codes = Codes0
    ).

%!  options_in_text(+Codes, +Arguments, -Options) is semidet.
%
%   Options has the lists of options that each ~W of a text takes from the
%   Arguments. Fails where the text has a letter that takes a goal, or one that
%   is not known, or where too few arguments are known.

options_in_text([], _, []).
options_in_text([0'~|Codes0], Arguments0, Options) :-
    !,
    stars_after(Codes0, Arguments0, Arguments1),
    letter_after(Codes0, Letter, Codes),
    (   Letter == 0'W
    ->  nonvar(Arguments1),
        Arguments1 = [_|Arguments2],
        nonvar(Arguments2),
        Arguments2 = [Option|Arguments],
        Options = [Option|More]
    ;   memberchk(Letter, `acdDefgGhHiIpqrRswWkv`)
    ->  nonvar(Arguments1),
        Arguments1 = [_|Arguments],
        Options = More
    ;   memberchk(Letter, `n~t|+`),
        Arguments = Arguments1,
        Options = More
    ),
    options_in_text(Codes, Arguments, More).
options_in_text([_|Codes], Arguments, Options) :-
    options_in_text(Codes, Arguments, Options).

stars_after([0'*|_], [_|Arguments], Arguments) :- !.
stars_after(_, Arguments, Arguments).

%!  reads_terms(+Where, +PI) is semidet.
%
%   PI reads terms from a text, with the syntaxes of quasi quotations.

reads_terms(system, PI) :-
    memberchk(PI, [ read/1, read/2, read_term/2, read_term/3, read_clause/3, read_term_from_atom/3, term_to_atom/2,
                    term_string/2, term_string/3, atom_to_term/3, sformat/3 ]).
reads_terms(read_util, PI) :-
    memberchk(PI, [read_term_from_atom/3, read_file_to_terms/3]).

%!  keeps_terms(+PI) is semidet.
%
%   PI gives a term that was kept earlier, with the goals that wait for its
%   variables.

keeps_terms(PI) :-
    memberchk(PI, [ nb_getval/2, b_getval/2, nb_current/2, recorded/2, recorded/3, instance/2, trie_lookup/3,
                    trie_gen/2, trie_gen/3, trie_gen_compiled/2, trie_gen_compiled/3, thread_peek_message/1,
                    thread_peek_message/2 ]).

%!  runs_later(+Where, +PI) is semidet.
%
%   PI has a goal run later, whatever is then called. file_doubts has those that
%   are known by their names alone.

runs_later(time, alarm/3).
runs_later(time, alarm/4).

%!  is_harmless_directive(+Goal) is semidet.
%
%   What a directive that calls Goal leaves behind, beyond what real_source
%   reads of it, concerns no predicate of the file: declarations, imports,
%   flags, and what is registered with libraries.

is_harmless_directive(initialization(main)) :- !.
is_harmless_directive(initialization(_, When)) :-
    !,
    When == main.
is_harmless_directive(set_prolog_flag(_, _)) :- !.
is_harmless_directive(import(Import)) :-
    !,
    ground(Import).
is_harmless_directive(expects_dialect(Dialect)) :-
    !,
    Dialect == swi.
is_harmless_directive(Goal) :-
    functor(Goal, Name, Arity),
    \+ ( declares_what_it_names(Name/Arity), arg(1, Goal, Declared), var(Declared) ),
    harmless_directives(PIs),
    memberchk(Name/Arity, PIs),
    !.

declares_what_it_names((table)/1).
declares_what_it_names((meta_predicate)/1).
declares_what_it_names((module_transparent)/1).
declares_what_it_names(redefine_system_predicate/1).

%!  is_harmless_name(+PI) is semidet.
%
%   No call of PI leaves anything behind that concerns the file's predicates,
%   whatever its arguments are.

is_harmless_name(PI) :-
    memberchk(PI, [ use_foreign_library/1, use_foreign_library/2, load_foreign_library/1, load_foreign_library/2,
                    compile_predicates/1, (public)/1, (volatile)/1, noprofile/1, '$hide'/1, style_check/1, license/1 ]).

harmless_directives(
    [ (dynamic)/1, (dynamic)/2, (discontiguous)/1, (multifile)/1, (public)/1, (volatile)/1, (thread_local)/1,
      (table)/1, (meta_predicate)/1, (module_transparent)/1, (det)/1, non_terminal/1, noprofile/1, '$hide'/1,
      '$clausable'/1, '$iso'/1, redefine_system_predicate/1, arithmetic_function/1, residual_goals/1 ]).
harmless_directives(
    [ module/2, module/3, use_module/1, use_module/2, autoload/1, autoload/2, reexport/1, reexport/2, ensure_loaded/1,
      consult/1, load_files/1, load_files/2, '[|]'/2, include/1, require/1, export/1, import/1, use_foreign_library/1,
      use_foreign_library/2, load_foreign_library/1, load_foreign_library/2, compile_predicates/1, encoding/1,
      expects_dialect/1, op/3, add_import_module/3, set_base_module/1, '$set_source_module'/1, '$set_source_module'/2,
      create_prolog_flag/3, style_check/1, license/1, license/2, set_module/1, begin_tests/1, begin_tests/2,
      end_tests/1, set_test_options/1, if/1, elif/1, else/0, endif/0, debug/1, nodebug/1, format_predicate/2,
      trust/1 ]).
harmless_directives(
    [ predicate_options/3, setting/4, record/1, html_meta/1, html_resource/2, http_handler/3, rdf_meta/1,
      rdf_register_ns/2, rdf_register_ns/3, rdf_register_prefix/2, rdf_register_prefix/3, rdf_prefix/2, listen/2,
      listen/3, lazy_list_iterator/4, quasi_quotation_syntax/1, chr_constraint/1, chr_option/2, chr_type/1,
      constraints/1, pce_begin_class/2, pce_begin_class/3, pce_end_class/0, pce_end_class/1, pce_group/1,
      use_class_template/1, pce_extend_class/1 ]).

%!  flag_kind(+Flag, -Kind) is det.
%
%   What a flag of SWI-Prolog may change: `reading` of the text, `tabling`,
%   `printing`, or `running` of what it is not known, and `none` where it
%   changes nothing of these, or is the file's own.

flag_kind(Flag, Kind) :-
    (   var(Flag)
    ->  Kind = any
    ;   flags(Kind0, Flags),
        memberchk(Flag, Flags)
    ->  Kind = Kind0
    ;   atom(Flag),
        \+ current_prolog_flag(Flag, _)
    ->  Kind = none
    ;   Kind = running
    ).

flags(reading,
    [ double_quotes, back_quotes, character_escapes, character_escapes_unicode, rational_syntax, var_prefix,
      traditional, iso, char_conversion, allow_dot_in_atom, allow_variable_name_as_functor, quasi_quotations,
      float_format ]).
flags(tabling,
    [ max_table_subgoal_size, max_table_subgoal_size_action, max_table_answer_size, max_table_answer_size_action,
      max_answers_for_subgoal, max_answers_for_subgoal_action, table_subsumptive, table_incremental, table_monotonic,
      table_shared ]).
flags(printing, [print_write_options, write_attributes]).
flags(none,
    [ access_level, agc_margin, agc_close_streams, answer_format, answer_write_options, argv, associated_file,
      autoload, bounded, c_cc, c_cflags, c_ldflags, c_libplso, c_libs, color_term, cpu_count, debug, debug_on_error,
      debug_on_interrupt, debug_term_position, debugger_show_context, debugger_write_options, determinism_error, editor,
      emacs_inferior_process, emulated_dialect, encoding, error_ambiguous_stream_pair, file_name_case_handling,
      file_name_variables, file_search_cache_time, fileerrors, float_overflow, float_rounding, float_undefined,
      float_underflow, float_zero_div, gc, gc_thread, generate_debug_info, hide, history, integer_rounding_function,
      last_call_optimisation, malloc, max_rational_size, max_rational_size_action, message_context, message_language,
      mitigate_spectre, occurs_check, on_error, on_warning, optimise, optimise_debug, optimise_unify, os_argv, packs,
      pipe, posix_shell, prefer_rationals, prompt_alternatives_on, protect_static_code, qcompile, query_debug_settings,
      readline, report_error, res_keep_foreign, sandboxed_load, shared_table_space, shift_check, signals, stack_limit,
      stream_type_check, table_space, test_options, threads, tmp_dir, timezone, toplevel_extra_white_line,
      toplevel_goal, toplevel_list_wfs_residual_program, toplevel_mode, toplevel_name_variables, toplevel_print_anon,
      toplevel_print_factorized, toplevel_prompt, toplevel_residue_vars, toplevel_var_size, trace_gc, tty_control,
      unknown, unload_foreign_libraries, user_flags, verbose, verbose_autoload, verbose_file_search, verbose_load,
      vmi_builtin, warn_override_implicit_import, xpce, xref ]).

%!  hooks(+PI, -Hooks) is semidet.
%
%   Hooks are Module:Name/Arity of what a file may define for the built-in
%   predicate PI to call.

hooks(PI, Hooks) :-
    hooks_of(Kinds, PIs),
    memberchk(PI, PIs),
    !,
    findall(Hook, ( member(Kind, Kinds), hook(Kind, Hook) ), Hooks).

hooks_of([print, attributes], [portray_clause/1, portray_clause/2, listing/0, listing/1]).
hooks_of([print],
         [ print/1, print/2, write_term/2, write_term/3, write_length/3, term_string/3, format/1, format/2, format/3,
           writeln/1, writeln/2, ansi_format/3 ]).
hooks_of([print, message], [print_message/2, print_message_lines/3, message_to_string/2, license/1, license/2]).
hooks_of([print, message, version], [version/0, version/1]).
hooks_of([print, message, debug], [debug/3]).
hooks_of([print, message, failed], [assertion/1]).
hooks_of([files], [absolute_file_name/2, absolute_file_name/3, exists_source/1, exists_source/2,
                   expand_file_search_path/2, read_file_to_codes/3, read_file_to_string/3, read_file_to_terms/3]).
hooks_of([type], [must_be/2, is_of_type/2]).
hooks_of([globals], [nb_getval/2, b_getval/2]).

hook(print, user:portray/1).
hook(message, prolog:message/3).
hook(message, prolog:message/4).
hook(message, prolog:error_message/3).
hook(message, prolog:error_message/4).
hook(message, prolog:message_context/3).
hook(message, prolog:message_context/4).
hook(message, prolog:message_location/3).
hook(message, prolog:message_location/4).
hook(message, prolog:deprecated/3).
hook(message, prolog:deprecated/4).
hook(message, prolog:message_line_element/2).
hook(message, prolog:message_prefix_hook/2).
hook(message, user:message_hook/3).
hook(message, user:thread_message_hook/3).
hook(message, user:message_property/2).
hook(message, user:generate_message_hook/3).
hook(debug, prolog:debug_print_hook/3).
hook(failed, prolog:assertion_failed/2).
hook(files, user:file_search_path/2).
hook(files, user:library_directory/1).
hook(files, user:prolog_file_type/2).
hook(files, user:prolog_load_file/2).
hook(type, error:has_type/2).
hook(globals, user:exception/3).
hook(print, user:portray_attvar/1).
hook(print, _:attr_portray_hook/2).
hook(attributes, _:attribute_goals/3).
hook(message, prolog:console_color/2).
hook(version, prolog:version_msg/1).

%!  is_hook(+Predicate) is semidet.
%
%   Predicate is one that a built-in predicate calls. It is always assumed that
%   clauses of other files for it end.

is_hook(Module:PI) :-
    hook(_, Hook),
    Hook == Module:PI,
    !.

%!  is_read_library(?Module) is nondet.
%
%   Modules of SWI-Prolog's library that are read even where something is
%   assumed of them, since they call the goals of the file.

is_read_library(lists).
is_read_library(apply).
is_read_library(pairs).
is_read_library(assoc).
is_read_library(ordsets).
is_read_library(swi_option).
is_read_library(occurs).
is_read_library(ugraphs).
is_read_library(dcg_basics).
is_read_library(dcg_high_order).
is_read_library(rbtrees).
is_read_library(heaps).
is_read_library(terms).
