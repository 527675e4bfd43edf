:- module(cti_file_pack, []).

% What `use_module(library(cti_file))` loads, once the folder above this one is installed as a pack.

:- reexport('../cti_file').
