% Tests of the module cti. Run them at the top of the repository, once bin/cti is built:
%
%     CTI=bin/cti swipl -g run_tests -t halt swi/test_cti.pl

:- use_module(cti).
:- use_module(library(plunit)).

:- begin_tests(cti).

test(modes, Modes == [app/3-[[1],[3]]]) :-
    cti_modes('examples/append.pl', Modes).

test(no_mode, Modes == [tc/2-[], edge/2-[[]]]) :-
    cti_modes('examples/closure.pl', Modes).

test(list_norm, Modes == [seats/1-[[]], (=)/2-[[]], beside/3-[[3]], member/2-[[2]], next/3-[[3]]]) :-
    cti_modes('examples/seats.pl', Modes, [norm(list)]).

test(term_norm, Modes == [app/3-[[1],[3]]]) :-
    cti_modes('examples/append.pl', Modes, [norm(term)]).

test(no_norm, error(_)) :-
    cti_modes('examples/append.pl', _, [norm(depth)]).

test(facts_of_a_norm, Facts == [cti(2), norm(list)]) :-
    cti_certificate('examples/append.pl', [First, Second|_], [norm(list)]),
    Facts = [First, Second].

test(no_program, [setup(getenv('CTI', Program)), cleanup(setenv('CTI', Program)),
                  error(existence_error(program, '/nonexistent'))]) :-
    setenv('CTI', '/nonexistent'),
    cti_modes('examples/append.pl', _).

test(facts, Fact == cti(1)) :-
    cti_certificate('examples/append.pl', [Fact|_]).

test(valid) :-
    cti_check('examples/append.pl', 'examples/append.cert').

test(not_valid, fail) :-
    cti_check('examples/reverse.pl', 'examples/append.cert').

test(refused_certificate, error(cti_error(3, _))) :-
    cti_check('examples/append.pl', 'examples/append.pl').

test(missing_file, error(cti_error(4, _))) :-
    cti_modes('examples/missing.pl', _).

test(infer_to_a_file) :-
    tmp_file(cert, Certificate),
    cti_infer('examples/append.pl', Certificate, [timeout(30)]),
    cti_check('examples/append.pl', Certificate),
    delete_file(Certificate).

test(infer_with_a_fault, error(cti_error(4, _))) :-
    tmp_file(cert, Certificate),
    cti_infer('examples/missing.pl', Certificate, []).

test(loop, Answer == loop([],[2])) :-
    cti_loop('examples/append.pl', 'app(X,[c],Z)', Answer).

test(no_loop, Answer == no_loop(2)) :-
    cti_loop('examples/append.pl', "app([a],Y,Z)", Answer, [depth(12)]).

test(no_depth, error(type_error(_, _))) :-
    cti_loop('examples/append.pl', 'app(X,Y,Z)', _, [depth(13)]).

test(refused_query, error(cti_error(3, _))) :-
    cti_loop('examples/append.pl', 'p ; q', _).

test(lex, Modes == [ack/3-[[1,2]]]) :-
    cti_lex('examples/ackermann.pl', Modes).

test(lex_where_one_mapping_is_enough, Modes == [app/3-[[1],[3]]]) :-
    cti_lex('examples/append.pl', Modes).

test(lex_of_a_missing_file, error(cti_error(4, _))) :-
    cti_lex('examples/missing.pl', _).

test(lex_of_no_program, error(cti_error(3, _))) :-
    cti_lex('README.md', _).

test(session, Modes == [app/3-[[]], app/3-[[1],[3]], app/3-[[]]]) :-
    cti_session([ add(app([],L,L)), modes(app/3),
                  add((app([H|T],M,[H|R]) :- app(T,M,R))), modes(app/3),
                  del(2), modes(app/3) ],
                Modes).

test(session_with_operators, Modes == [down/1-[], (=)/2-[[]]]) :-
    cti_session([ add((down(N) :- N > 0, M is N - 1, down(M))), modes(down/1), add((p(X) :- X = 'A b')), modes((=)/2) ],
                Modes).

test(session_without_such_a_clause, error(cti_error(3, _))) :-
    cti_session([del(1)], _).

test(session_of_no_edits, Modes == []) :-
    cti_session([], Modes).

test(why, Line-Column == 9-12) :-
    cti_why('examples/closure.pl', [note(Line, Column, Sentence)]),
    sub_string(Sentence, 0, _, _, "`tc/2` has no mode: ").

test(why_where_there_are_modes, Notes == []) :-
    cti_why('examples/append.pl', Notes).

test(why_names_the_calls) :-
    cti_why('examples/ackermann.pl', [note(10, 21, Sentence)]),
    sub_string(Sentence, _, _, 0, " calls: 10:21, 10:36"),
    !.

test(why_by_list_size, Predicates == ["plus/3", "times/3", "fact/2"]) :-
    cti_why('examples/numbers.pl', Notes, [norm(list)]),
    findall(Predicate,
            ( member(note(_, _, Sentence), Notes), split_string(Sentence, "`", "", [_, Predicate|_]) ),
            Predicates).

test(assertions, Assertions == [(:- pred(app(+,?,?))), (:- pred(app(?,?,+)))]) :-
    cti_assertions('examples/append.pl', Assertions).

test(modes_hold, Lost == []) :-
    cti_lost('examples/append.pl', [app/3-[[1],[1,2],[3]]], Lost, []).

test(modes_are_lost, Lost == [app/3-[[2]], gone/1-[[]]]) :-
    cti_lost('examples/append.pl', [app/3-[[1],[2]], gone/1-[[]]], Lost, []).

test(modes_by_lists_hold, Lost == []) :-
    cti_lost('examples/ackermann.pl', [ack/3-[[1,2],[1,2,3]]], Lost, [lex(true)]).

test(modes_by_lists_are_lost_without, Lost == [ack/3-[[1,2]]]) :-
    cti_lost('examples/ackermann.pl', [ack/3-[[1,2]]], Lost, []).

:- end_tests(cti).
