:- module(real_modules,
          [ start_project/0,
            root_source/2,              % +Project, ?Source
            defining_sources/3,         % +Project, +Predicate, -Sources
            source_of/3,                % +Project, +Predicate, -Source
            is_defined_in/2,            % +Project, +Predicate
            module_source/3,            % +Context, +Module, -Source
            exported_source/5,          % +Project, +Path, +Predicate, -Real, -Source
            import_of/3,                % +Source, +PI, -Import
            selected/4,                 % ?Selection, +Exports, +PI, -Real
            index/3,                    % +PI, -Module, -Path
            is_library_module/1,        % +Module
            is_autoloaded/2             % +Name/Arity, +Module
          ]).

/** <module> Which file has the clauses of a predicate

A project's own files are its roots (see real_source). Another file is read
once a predicate of it is called, and a module is then of the first file that
was read for it: a file with a module of the same name is not.
*/

:- use_module(library(apply)).
:- use_module(library(lists)).
:- use_module(real_source).

:- dynamic kept_index/3, module_file/2.

%!  start_project is det.
%
%   Forgets which files were read for which modules.

start_project :-
    retractall(module_file(_, _)).

%!  root_source(+Project:dict, ?Source:dict) is nondet.

root_source(Project, Source) :-
    member(Source, Project.sources).

%!  defining_sources(+Project, +Predicate, -Sources:list) is det.
%
%   The sources that have clauses of Predicate, or declare it: roots, and the
%   file that was read for its module.

defining_sources(Project, Predicate, Sources) :-
    include(defines(Predicate), Project.sources, Roots),
    Predicate = Module:_,
    (   module_file(Module, Path),
        file_source(Path, Source),
        is_defined(Source, Predicate)
    ->  Sources = [Source|Roots]
    ;   Sources = Roots
    ).

defines(Predicate, Source) :-
    is_defined(Source, Predicate).

%!  source_of(+Project, +Predicate, -Source:dict) is semidet.
%
%   Source is what was read of a file that has the clauses of Predicate.

source_of(Project, Predicate, Source) :-
    defining_sources(Project, Predicate, [Source|_]).

%!  is_defined_in(+Project, +Predicate) is semidet.
%
%   A root has clauses of Predicate, or declares it.

is_defined_in(Project, Predicate) :-
    root_source(Project, Source),
    is_defined(Source, Predicate),
    !.

%!  module_source(+Context:dict, +Module, -Source:dict) is semidet.
%
%   The source of a module that a goal names: of a root, or of a file that was
%   read for it, that the text or a root imports, or that is of the library.

module_source(Context, Module, Source) :-
    (   Module == Context.source.module
    ->  Source = Context.source
    ;   atom_concat(plunit_, _, Module)
    ->  Source = Context.source
    ;   root_source(Context.project, Source),
        Source.module == Module
    ->  true
    ;   module_file(Module, Path)
    ->  file_source(Path, Source)
    ;   module_path(Context, Module, Path),
        file_of_module(Context.project, Path, Module, Source)
    ).

module_path(Context, Module, Path) :-
    (   member(import(Path, header(Module, _), _), Context.source.imports)
    ;   root_source(Context.project, Source),
        member(import(Path, header(Module, _), _), Source.imports)
    ;   ensure_index,
        kept_index(_, Module, Path)
    ),
    atom(Path),
    !.

%   file_of_module(+Project, +Path, +Module, -Source): the file at Path is the
%   one that has Module.

file_of_module(Project, Path, Module, Source) :-
    (   root_source(Project, Root),
        ( Root.module == Module ; Root.path == Path )
    ->  Root.path == Path,
        Root.module == Module,
        Source = Root
    ;   module_file(Module, Path0)
    ->  Path0 == Path,
        file_source(Path, Source)
    ;   file_source(Path, Source),
        Source.module == Module,
        assertz(module_file(Module, Path))
    ).

%!  exported_source(+Project, +Path, +Predicate, -Real, -Source:dict) is semidet.
%
%   The file at Path exports Predicate. Source has the clauses of it, which may
%   be another file's that Path imports, where it has the name Real.

exported_source(Project, Path, Predicate, Real, Source) :-
    exported_source(Project, Path, Predicate, [], Real, Source).

exported_source(Project, Path, Module:PI, Visited, Real, Source) :-
    \+ memberchk(Path, Visited),
    file_of_module(Project, Path, Module, Source0),
    (   is_defined(Source0, Module:PI)
    ->  Real = Module:PI,
        Source = Source0
    ;   import_of(Source0, PI, imported(Path1, Predicate1)),
        atom(Path1),
        Predicate1 = Module1:_,
        Module1 \== none,
        exported_source(Project, Path1, Predicate1, [Path|Visited], Real, Source)
    ).

%!  import_of(+Source, +PI, -Import) is semidet.
%
%   What a directive of the file imports by that name: imported(Path,
%   Module:PI), or imported(Path, none:PI), where Path is the file that has it
%   and not one that exports it again. Where there are several, one from
%   outside SWI-Prolog's library is taken; else one that is imported by its
%   name.

import_of(Source, PI, Import) :-
    findall(Selection-Found,
            ( member(import(Path, Header, Selection), Source.imports),
              imports(Path, Header, Selection, PI, [Source.path], Found) ),
            Imports),
    (   member(_-Import, Imports),
        Import = imported(Path, _),
        \+ is_library_file(Path)
    ->  true
    ;   member(Selection-Import, Imports),
        is_list(Selection)
    ->  true
    ;   Imports = [_-Import|_]
    ).

%   imports(+Path, +Header, +Selection, +PI, +Visited, -Found)

imports(Path, header(Module, Exports), Selection, PI, Visited, Found) :-
    Module \== none,
    !,
    (   selected(Selection, Exports, PI, Real)
    ->  Found = imported(Path, Module:Real)
    ;   atom(Path),
        \+ memberchk(Path, Visited),
        file_reexports(Path, Reexports),
        member(import(Path1, Header1, Selection1), Reexports),
        imports(Path1, Header1, Selection1, PI, [Path|Visited], Found)
    ->  true
    ).
imports(Path, header(none, _), _, PI, Visited, imported(Path, none:PI)) :-
    (   atom(Path), exists_file(Path)
    ->  \+ memberchk(Path, Visited),
        file_source(Path, Source),
        (   is_defined(Source, Source.module:PI)
        ->  true
        ;   member(import(Path1, Header1, Selection1), Source.imports),
            imports(Path1, Header1, Selection1, PI, [Path|Visited], _)
        ->  true
        )
    ;   Path \= library(_)
    ).

%!  selected(?Selection, +Exports, +PI, -Real) is semidet.
%
%   Of what a file exports, Selection imports Real by the name PI.

selected(Selection, Exports, PI, PI) :-
    var(Selection),
    !,
    exports(Exports, PI).
selected(all, Exports, PI, PI) :-
    !,
    exports(Exports, PI).
selected(except(Excepted), Exports, PI, PI) :-
    !,
    exports(Exports, PI),
    \+ exports(Excepted, PI).
selected(List, _, Name/Arity, Real) :-
    is_list(List),
    (   exports(List, Name/Arity)
    ->  Real = Name/Arity
    ;   member(Item, List),
        nonvar(Item),
        Item = as(Real0, Name),
        exports([Real0], _/Arity)
    ->  exports([Real0], Real1/Arity),
        Real = Real1/Arity
    ).

exports(Exports, Name/Arity) :-
    member(Export, Exports),
    (   Export = Name/Arity
    ;   nonvar(Export),
        Export = Name//Arity0,
        integer(Arity0),
        Arity is Arity0 + 2
    ),
    !.

%!  index(+PI, -Module, -Path) is semidet.
%
%   The library's predicate that is loaded when it is called.

index(PI, Module, Path) :-
    ensure_index,
    kept_index(PI, Module, Path),
    !.

%!  is_autoloaded(+PI, +Module) is semidet.
%
%   A library other than Module has PI, and is loaded when it is called.

is_autoloaded(PI, Module) :-
    ensure_index,
    kept_index(PI, Library, _),
    Library \== Module,
    !.

%!  is_library_module(+Module) is semidet.

is_library_module(Module) :-
    ensure_index,
    kept_index(_, Module, _),
    !.

ensure_index :-
    kept_index(_, _, _),
    !.
ensure_index :-
    forall(( absolute_file_name(library('INDEX'), Index, [extensions([pl]), access(read), solutions(all)]),
             file_directory_name(Index, Directory),
             setup_call_cleanup(open(Index, read, In, [encoding(utf8)]),
                                index_entry(In, Name, Arity, Module, File),
                                close(In)) ),
           ( format(atom(Path), "~w/~w.pl", [Directory, File]),
             assertz(kept_index(Name/Arity, Module, Path)) )).

index_entry(In, Name, Arity, Module, File) :-
    repeat,
    read(In, Term),
    (   Term == end_of_file
    ->  !, fail
    ;   Term = index(Name, Arity, Module, File)
    ).
