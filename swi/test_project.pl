% Tests of several files as one program. Run them at the top of the repository, once bin/cti is built:
%
%     CTI=bin/cti swipl -g run_tests -t halt swi/test_project.pl

:- use_module(cti_file).
:- use_module(library(apply)).
:- use_module(library(filesex)).
:- use_module(library(lists)).
:- use_module(library(plunit)).
:- use_module(library(process)).
:- use_module(library(readutil)).

%   in_project(+Texts, :Goal): Goal is called with a directory that has the
%   files of Texts, which are Name-Text.

:- meta_predicate in_project(+, 1).

in_project(Texts, Goal) :-
    tmp_file(project, Directory),
    setup_call_cleanup(make_directory(Directory),
                       ( maplist(write_file(Directory), Texts), once(call(Goal, Directory)) ),
                       delete_directory_and_contents(Directory)).

write_file(Directory, Name-Text) :-
    directory_file_path(Directory, Name, File),
    file_directory_name(File, Parent),
    make_directory_path(Parent),
    setup_call_cleanup(open(File, write, Out, [encoding(utf8)]), write(Out, Text), close(Out)).

%   modes(+Texts, +Names, -Modes, -Doubts): of the files with these names, or of
%   the whole directory where Names is `all`.

modes(Texts, Names, Modes, Doubts) :-
    in_project(Texts, modes_in(Names, Modes, Doubts)).

modes_in(Names, Modes, Doubts, Directory) :-
    (   Names == all
    ->  Files = Directory
    ;   findall(File, ( member(Name, Names), directory_file_path(Directory, Name, File) ), Files)
    ),
    cti_file_modes(Files, Modes, Assumptions, []),
    findall(Predicate-Doubt,
            ( member(assumed(_, _, Doubt, Dependents), Assumptions), member(Predicate, Dependents) ),
            Doubts).

doubts_of(Predicate, Doubts, Of) :-
    findall(Doubt, member(Predicate-Doubt, Doubts), Of).

%   Four modules: the parser and the builder of terms call each other.

four_modules(
    [ 'main.pl'-
":- module(main, [run/2]).
:- use_module(parser).
:- use_module(library(lists)).
run(Tokens, Size) :- sentence(Tree, Tokens, []), weigh(Tree, Size).
weigh(Tree, Size) :- leaves(Tree, Leaves), length(Leaves, Size).
leaves(leaf(X), [X]).
leaves(node(L, R), Xs) :- leaves(L, Ls), leaves(R, Rs), append(Ls, Rs, Xs).
",
      'parser.pl'-
":- module(parser, [sentence/3]).
:- use_module(group).
:- use_module(tokens).
sentence(Tree) --> word(X), rest(leaf(X), Tree).
sentence(Tree) --> group(Left), rest(Left, Tree).
rest(Tree, Tree) --> [].
rest(Left, node(Left, Right)) --> sentence(Right).
",
      'group.pl'-
":- module(group, [group/3]).
:- use_module(parser).
group(Tree) --> ['('], sentence(Tree), [')'].
",
      'tokens.pl'-
":- module(tokens, [word/3, spin/1]).
word(X) --> [X], { atom(X) }.
spin(X) :- spin(X).
" ]).

:- begin_tests(project).

test(four_modules, Sorted-Doubts ==
     [ group/3-[[2]], leaves/2-[[1]], rest/4-[[3]], run/2-[[1]], sentence/3-[[2]], spin/1-[], weigh/2-[[1]],
       word/3-[[]] ]-[]) :-
    four_modules(Texts),
    modes(Texts, ['main.pl', 'parser.pl', 'group.pl', 'tokens.pl'], Modes, Doubts),
    msort(Modes, Sorted).
test(directory, Modes == Of) :-
    four_modules(Texts),
    modes(Texts, all, Modes0, _),
    modes(Texts, ['main.pl', 'parser.pl', 'group.pl', 'tokens.pl'], Of0, _),
    msort(Modes0, Modes),
    msort(Of0, Of).
test(one_file_reads_what_it_calls, Modes-Doubts == [run/2-[[1]], weigh/2-[[1]], leaves/2-[[1]]]-[]) :-
    four_modules(Texts),
    modes(Texts, ['main.pl'], Modes, Doubts).
test(files_of_predicates, Names == ['group.pl':3, 'main.pl':4, 'main.pl':5, 'main.pl':6, 'parser.pl':4, 'parser.pl':6,
                                    'tokens.pl':2, 'tokens.pl':3]) :-
    four_modules(Texts),
    in_project(Texts, places_in(Names0)),
    msort(Names0, Names).
test(loop_through_two_files, Modes == [ping/1-[], pong/1-[]]) :-
    modes(['c.pl'-":- module(c, [ping/1]).\n:- use_module(d).\nping(X) :- pong(X).\n",
           'd.pl'-":- module(d, [pong/1]).\n:- use_module(c).\npong(X) :- ping(X).\n"],
          all, Modes, _).
test(loop_through_two_files_from_one, Modes == [ping/1-[]]) :-
    modes(['c.pl'-":- module(c, [ping/1]).\n:- use_module(d).\nping(X) :- pong(X).\n",
           'd.pl'-":- module(d, [pong/1]).\n:- use_module(c).\npong(X) :- ping(X).\n"],
          ['c.pl'], Modes, _).
test(closure_of_another_module, Modes == [p/1-[]]) :-
    modes(['c.pl'-":- module(c, [p/1]).\n:- use_module(d).\np(X) :- each(p, [X]).\n",
           'd.pl'-":- module(d, [each/2]).\n:- meta_predicate each(1, +).\neach(_, []).\neach(G, [X|Xs]) :- call(G, X), each(G, Xs).\n"],
          ['c.pl'], Modes, _).
test(names_of_modules, Modes == [help/1-[[]], help/1-[], p/1-[[]], q/1-[]]) :-
    modes(['a.pl'-":- module(a, [p/1]).\np(X) :- help(X).\nhelp(_).\n",
           'b.pl'-":- module(b, [q/1]).\nq(X) :- help(X).\nhelp(X) :- help(X).\n"],
          all, Modes0, _),
    msort(Modes0, Modes1),
    predsort([O, A, B]>>( compare(O0, A, B), ( O0 == (=) -> O = (<) ; O = O0 ) ), Modes1, Modes2),
    Modes2 = [H1, H2|Others],
    ( H1 == help/1-[] -> Modes = [H2, H1|Others] ; Modes = Modes2 ).
test(same_module_twice, Sets == []) :-
    modes(['a.pl'-":- module(m, [p/1]).\np(_).\n", 'b.pl'-":- module(m, [p/1]).\np(X) :- p(X).\n"], all, Modes, _),
    memberchk(p/1-Sets, Modes).
test(module_that_is_another_files, Doubts == [external(m:p/1)]) :-
    modes(['a.pl'-":- module(a, [r/1]).\n:- use_module(m1).\n:- use_module(x).\nr(X) :- q(X), p(X).\n",
           'm1.pl'-":- module(m, [q/1]).\nq(_).\n",
           'x.pl'-":- module(x, []).\n:- reexport(m2).\n",
           'm2.pl'-":- module(m, [p/1]).\np(X) :- p(X).\n"],
          ['a.pl'], _, Doubts0),
    doubts_of(r/1, Doubts0, Doubts).
test(consulted_file, Modes == [p/1-[], q/1-[]]) :-
    modes(['a.pl'-":- consult(b).\np(X) :- q(X).\n", 'b.pl'-"q(X) :- p(X).\n"], ['a.pl'], Modes, _).
test(files_without_modules, Modes == [p/1-[], q/1-[]]) :-
    modes(['a.pl'-"p(X) :- q(X).\n", 'b.pl'-"q(X) :- p(X).\n"], all, Modes, _).
test(user_of_a_project, Sets == []) :-
    modes(['a.pl'-":- module(a, [p/1]).\np(X) :- append(X, [], _).\n", 'b.pl'-"append(X, Y, Z) :- append(X, Y, Z).\n"],
          all, Modes, _),
    memberchk(p/1-Sets, Modes).
test(import_of_user, Sets == []) :-
    modes(['a.pl'-":- module(a, [p/1]).\np(X) :- loop(X).\n", 'b.pl'-":- use_module(c).\n",
           'c.pl'-":- module(c, [loop/1]).\nloop(X) :- loop(X).\n"],
          ['a.pl', 'b.pl'], Modes, _),
    memberchk(p/1-Sets, Modes).
test(file_of_a_module_alone, Modes == [p/1-[[]], q/1-[[]]]) :-
    modes(['a.pl'-":- module(a, [p/1]).\n:- ensure_loaded(b).\np(X) :- q(X).\n", 'b.pl'-"q(_).\n"], all, Modes, _).
test(clauses_for_another_file, Sets == []) :-
    modes(['a.pl'-":- module(a, [p/1]).\n:- multifile p/1.\np(a).\n", 'b.pl'-":- module(b, []).\na:p(X) :- loop(X).\nloop(X) :- loop(X).\n"],
          all, Modes, _),
    memberchk(p/1-Sets, Modes).
test(hook_of_another_file, Sets == []) :-
    modes(['a.pl'-":- module(a, [p/1]).\np(X) :- print(X).\n",
           'b.pl'-":- module(b, []).\n:- multifile user:portray/1.\nuser:portray(X) :- loop(X).\nloop(X) :- loop(X).\n"],
          all, Modes, _),
    memberchk(p/1-Sets, Modes).
test(rule_that_another_file_adds, Sets == []) :-
    modes(['a.pl'-":- module(a, [p/1]).\n:- dynamic q/1.\np(X) :- q(X).\n",
           'b.pl'-":- module(b, [add/0]).\nadd :- assertz((a:q(X) :- a:q(X))).\n"],
          all, Modes, _),
    memberchk(p/1-Sets, Modes).
test(clause_that_another_file_adds) :-
    modes(['a.pl'-":- module(a, [p/1]).\n:- dynamic q/1.\np(X) :- q(X).\n",
           'b.pl'-":- module(b, [add/1]).\nadd(C) :- assertz(C).\n"],
          all, _, Doubts),
    doubts_of(p/1, Doubts, Of),
    memberchk(adds, Of).
test(clause_that_a_file_that_is_called_adds) :-
    modes(['a.pl'-":- module(a, [p/1]).\n:- use_module(b).\np(X) :- add(X).\n",
           'b.pl'-":- module(b, [add/1]).\nadd(C) :- assertz(C).\n"],
          ['a.pl'], _, Doubts),
    doubts_of(p/1, Doubts, Of),
    memberchk(adding, Of).
test(expansion_of_another_file) :-
    modes(['a.pl'-"user:goal_expansion(q(X), loop(X)).\nloop(X) :- loop(X).\n", 'b.pl'-":- module(b, [p/1]).\np(X) :- q(X).\nq(_).\n"],
          all, _, Doubts),
    doubts_of(p/1, Doubts, Of),
    memberchk(rewritten, Of).
test(doubts_of_another_file, Of == []) :-
    modes(['a.pl'-":- module(a, [p/1]).\np(_).\n", 'b.pl'-":- module(b, [q/1]).\nq(_).\nq q q.\n"], all, _, Doubts),
    doubts_of(p/1, Doubts, Of).
test(doubts_of_a_file_that_is_called, Of == [unread]) :-
    modes(['a.pl'-":- module(a, [p/1]).\n:- use_module(b).\np(X) :- q(X).\n", 'b.pl'-":- module(b, [q/1]).\nq(_).\nq q q.\n"],
          ['a.pl'], _, Doubts),
    doubts_of(p/1, Doubts, Of).
test(texts_of_a_consulted_file, Sets == []) :-
    modes(['a.pl'-":- consult(b).\np(X) :- X = \"ab\", q(X).\nq([_|_]) :- q([a]).\nq(a).\n",
           'b.pl'-":- set_prolog_flag(double_quotes, codes).\n"],
          ['a.pl'], Modes, _),
    memberchk(p/1-Sets, Modes).
test(operators_of_a_consulted_file, Sets == []) :-
    modes(['a.pl'-":- consult(b).\nX ===> Y :- X ===> Y.\np(X) :- X ===> X.\n", 'b.pl'-":- op(700, xfx, ===>).\n"],
          ['a.pl'], Modes, _),
    memberchk(p/1-Sets, Modes).
test(files_that_consult_each_other, Modes == [p/1-[], q/1-[]]) :-
    modes(['a.pl'-":- consult(b).\np(X) :- q(X).\n", 'b.pl'-":- consult(a).\nq(X) :- p(X).\n"], all, Modes, _).
test(no_files, error(existence_error(_, _), _)) :-
    modes([], all, _, _).
test(table, Lines == ["a.pl:2              p/1", "b.pl:2              q/1"]) :-
    in_project(['a.pl'-":- module(a, [p/1]).\np(_).\n", 'b.pl'-":- module(b, [q/1]).\nq(_).\n"], printed_lines(Lines)).

places_in(Names, Directory) :-
    cti_file_answer(Directory, Answer, []),
    findall(Base:Line,
            ( member(Predicate, Answer.predicates), _{file:File, line:Line} :< Predicate, file_base_name(File, Base) ),
            Names).

printed_lines(Lines, Directory) :-
    cti_file_answer(Directory, Answer, []),
    with_output_to(string(Text), print_answer(Answer)),
    split_string(Text, "\n", "", [First, Second|_]),
    findall(Start, ( member(Line, [First, Second]), sub_string(Line, Before, _, _, "/1"), End is Before + 2,
                     sub_string(Line, 0, End, _, Start0), shortened(Start0, Start) ), Lines).

shortened(Text0, Text) :-
    split_string(Text0, " ", " ", Words0),
    exclude(==(""), Words0, [Place, Name]),
    format(string(Text), "~w~t~20|~w", [Place, Name]).

:- end_tests(project).
