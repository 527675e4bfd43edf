:- module(file_doubts,
          [ file_doubts/3,              % +Items, +Clauses, -Doubts
            mentions/2,                 % +Items, -Names
            leaves_waiting/1            % ?Name
          ]).

/** <module> What a file sets up that is run later

Some goals leave behind that other goals are run, or that other clauses are
called, later: listeners, wrappers, handlers of signals, hooks. Whoever calls
them, all predicates of the file may be concerned. They are looked for by their
names, wherever these stand in the text: a goal may be made of what is a term
there.
*/

:- use_module(library(lists)).
:- use_module(library(occurs)).
:- use_module(real_builtins, [runs_goal/1]).

%!  mentions(+Items, -Names) is det.
%
%   Names is the ordered set of the names in the text that watched/1 has, and
%   `~@` where a text in it has a letter of format/2 that calls a goal.

mentions(Items, Names) :-
    findall(Name,
            (   mentioned_in(Items, _, Name)
            ;   once(text_runs_goal(Items)), Name = '~@'
            ),
            Names0),
    sort(Names0, Names).

text_runs_goal(Items) :-
    member(raw(_, Term), Items),
    sub_term(Text, Term),
    (   atom(Text)
    ;   string(Text)
    ),
    once(sub_string(Text, _, _, _, "~")),
    string_codes(Text, Codes),
    runs_goal(Codes).

mentioned_in(Items, Line, Name) :-
    member(raw(Line, Term), Items),
    \+ only_names(Term),
    mentioned(Term, Name).

mentioned(Term, Term) :-
    atom(Term),
    watched(Term).
mentioned(Term, Name) :-
    compound(Term),
    compound_name_arguments(Term, Name0, Arguments),
    (   atom(Name0),
        watched(Name0),
        Name = Name0
    ;   member(Argument, Arguments),
        mentioned(Argument, Name)
    ).

%   Directives in which a name is no goal.

only_names(Term) :-
    nonvar(Term),
    Term = (:- Directive),
    nonvar(Directive),
    (   Directive = _:Inner
    ->  true
    ;   Inner = Directive
    ),
    compound(Inner),
    compound_name_arity(Inner, Name, _),
    memberchk(Name, [module, use_module, autoload, reexport, predicate_options, dynamic, multifile, discontiguous,
                     meta_predicate, public, license, det, module_transparent, set_prolog_flag]).

watched(Name) :-
    lasts(Name).
watched(Name) :-
    leaves_waiting(Name).
watched(at_halt).
watched(thread_at_exit).
watched(prolog_at_thread_exit).
watched(quasi_quotation_syntax).

%!  leaves_waiting(?Name) is nondet.
%
%   What has that name leaves a goal waiting for a variable, or says what is then
%   done.

leaves_waiting(freeze).
leaves_waiting(when).
leaves_waiting(dif).
leaves_waiting(put_attr).
leaves_waiting(put_attrs).
leaves_waiting('$suspend').
leaves_waiting(attr_unify_hook).
leaves_waiting(verify_attributes).
leaves_waiting(block).
leaves_waiting(lazy_list).
leaves_waiting(phrase_from_file).
leaves_waiting(phrase_from_stream).

%   What adds clauses of the file that is being loaded: from a clause, if a
%   directive or an expansion calls it.

only_while_loading(compile_aux_clauses).
only_while_loading('$store_clause').
only_while_loading('$add_clause').

in_directive(Items, Line) :-
    member(raw(Line, Term), Items),
    nonvar(Term),
    (   Term = (:- _)
    ;   Term = (?- _)
    ),
    !.

has_expansion(Clauses) :-
    member((_:Name/_)-_, Clauses),
    memberchk(Name, [term_expansion, goal_expansion]),
    !.

%   What has goals run, or clauses called, later.

lasts(prolog_listen).
lasts(wrap_predicate).
lasts('$wrap_predicate').
lasts('$c_wrap_predicate').
lasts(copy_predicate_clauses).
lasts(compile_aux_clauses).
lasts('$store_clause').
lasts('$add_clause').
lasts('$set_predicate_attribute').
lasts(on_signal).
lasts(prolog_alert_signal).
lasts(thread_signal).
lasts(thread_initialization).
lasts(unload_file).
lasts(register_iri_scheme).
lasts(autoload_path).
lasts(attach_packs).
lasts(alarm_at).

%!  file_doubts(+Items, +Clauses, -Doubts) is det.
%
%   Doubts is a list of doubt(Line, Doubt) that concern all predicates of the
%   file with these Items. Clauses are those that the file has or adds, each
%   Predicate-clause(Line, Head, Body).

file_doubts(Items, Clauses, Doubts) :-
    findall(doubt(Line, Doubt), file_doubt(Items, Clauses, Line, Doubt), Doubts0),
    sort(Doubts0, Doubts).

file_doubt(Items, Clauses, Line, lasting(Name)) :-
    mentioned_in(Items, Line, Name),
    lasts(Name),
    \+ ( only_while_loading(Name),
         \+ in_directive(Items, Line),
         \+ has_expansion(Clauses) ).
file_doubt(Items, _, Line, lasting(Name)) :-
    member(raw(Line, Term), Items),
    sub_term(Text, Term),
    (   atom(Text)
    ;   string(Text)
    ),
    once(sub_string(Text, _, _, _, "(")),
    lasts(Name),
    string_concat(Name, "(", Start),
    once(sub_string(Text, _, _, _, Start)).
file_doubt(Items, _, Line, lasting(monotonic)) :-
    member(directive(Line, _, Directive), Items),
    nonvar(Directive),
    memberchk(Directive, [table(_), dynamic(_), dynamic(_, _)]),
    sub_term(Sub, Directive),
    Sub == monotonic.
file_doubt(Items, _, Line, lasting(load_files)) :-
    member(raw(Line, Term), Items),
    sub_term(Goal, Term),
    nonvar(Goal),
    Goal = load_files(_, Options),
    sub_term(Option, Options),
    nonvar(Option),
    Option = stream(_).
file_doubt(_, Clauses, Line, libraries) :-
    member((user:Name/_)-clause(Line, Head, _), Clauses),
    searches_libraries(Name, Head).
file_doubt(_, Clauses, Line, hook(Module:PI)) :-
    member((Module:PI)-clause(Line, Head, Body), Clauses),
    Body \== true,
    called_by_the_system(PI, Modules),
    memberchk(Module, Modules),
    \+ other_message(Head),
    \+ other_exception(Head).

searches_libraries(file_search_path, Head) :-
    arg(1, Head, Alias),
    \+ Alias \= library.
searches_libraries(library_directory, _).

%   called_by_the_system(?PI, -Modules): hooks that many built-in predicates
%   call, or that are called at any time.

called_by_the_system(prolog_exception_hook/4, [user, prolog]).
called_by_the_system(prolog_exception_hook/5, [user, prolog]).
called_by_the_system(prolog_event_hook/1, [user, prolog]).
called_by_the_system(prolog_trace_interception/4, [user, prolog]).
called_by_the_system(heartbeat/0, [prolog]).
called_by_the_system(tripwire/2, [prolog]).
called_by_the_system(exception/3, [user]).
called_by_the_system(term_expansion/2, [user, system]).
called_by_the_system(term_expansion/4, [user, system]).
called_by_the_system(goal_expansion/2, [user, system]).
called_by_the_system(goal_expansion/4, [user, system]).
called_by_the_system(prolog_load_file/2, [user]).
called_by_the_system(open_source_hook/3, [prolog]).
called_by_the_system(comment_hook/3, [prolog]).
called_by_the_system(rename_predicate/2, [prolog]).
called_by_the_system(prolog_file_type/2, [user]).
called_by_the_system(message_hook/3, [user]).
called_by_the_system(thread_message_hook/3, [user]).
called_by_the_system(message_property/2, [user]).
called_by_the_system(message/3, [prolog]).
called_by_the_system(message/4, [prolog]).

%   A message that the system does not print itself while a query runs.

other_message(Head) :-
    compound(Head),
    compound_name_arity(Head, Name, Arity),
    message_argument(Name/Arity, I),
    arg(I, Head, Message),
    nonvar(Message),
    (   compound(Message)
    ->  compound_name_arity(Message, Kind, _)
    ;   Kind = Message
    ),
    \+ memberchk(Kind, [autoload, load_file, abnormal_thread_termination, silent]).

%   Where a global variable is not defined, those that ask for it call the hook.

other_exception(exception(Kind, _, _)) :-
    Kind == undefined_global_variable.

message_argument(message_hook/3, 1).
message_argument(thread_message_hook/3, 1).
message_argument(message/3, 1).
message_argument(message/4, 2).
message_argument(message_property/2, 1).
