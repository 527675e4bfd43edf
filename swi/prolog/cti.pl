:- module(cti_pack, []).

% What `use_module(library(cti))` loads, once the folder above this one is installed as a pack.

:- reexport('../cti').
