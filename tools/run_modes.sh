#!/bin/sh
# run_modes.sh [SEED]: runs run_modes over modules of SWI-Prolog's library whose predicates do no harm, one process at a time, each in an
# empty directory of its own. CTI names the program cti (with its whole path).
seed=${1:-1}
here=$(cd "$(dirname "$0")" && pwd)
library=$(swipl -g "absolute_file_name(library(lists), P, [file_type(prolog)]), file_directory_name(P, D), write(D)" -t halt)
for module in lists pairs assoc ordsets oset ugraphs option heaps rbtrees aggregate occurs terms varnumbers dcg/basics \
    base64 base32 url utf8 date strings nb_set optparse csv dicts ctypes codesio prolog_code pprint ansi_term writef yall \
    error operators lazy_lists sort tables solution_sequences random rewrite_term apply_macros arithmetic persistency \
    record settings edinburgh check statistics readln porter_stem iso_639 unicode/blocks xpath xsdp_types http/json \
    http/http_path clp/simplex clp/bounds chr/pairlist chr/a_star chr/binomialheap chr/clean_code chr/find chr/listmap \
    chr/chr_compiler_utility chr/chr_compiler_options dialect/hprolog dialect/bim dialect/sicstus/lists dialect/sicstus/terms \
    dialect/yap dialect/ifprolog dialect/hprolog lynx/pldoc_style lynx/format pldoc/doc_modes semweb/rdf_prefixes \
    semweb/rdf_litindex protobufs coinduction when prolog_metainference prolog_format prolog_deps edit; do
    [ -f "$library/$module.pl" ] || continue
    folder=$(mktemp -d)
    ( cd "$folder" && timeout 300 "$here/run_modes" --seed="$seed" "$library/$module.pl" < /dev/null 2>&1 | grep -E '^(ran|limit)\(' ) \
        || echo "none('$module')."
    rm -rf "$folder"
done
