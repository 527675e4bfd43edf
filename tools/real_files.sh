#!/bin/sh
# real_files.sh ROWS FILE..: runs swi/cti-file over real Prolog files, one process at a time and at most 15 s each, and writes a row for each
# to the file ROWS; real_files_table makes the table of them. CTI names the program cti.
#
#     CTI=bin/cti tools/real_files.sh /tmp/rows $(find /usr/lib/swi-prolog/library -name '*.pl' | sort)
#     tools/real_files_table /tmp/rows
rows=$1; shift
here=$(dirname "$0")
: > "$rows"
for file in "$@"; do
    before=$(wc -l < "$rows")
    said=$(timeout 15 "$here/../swi/cti-file" --timeout=10 --row "$file" 2>&1 >> "$rows" < /dev/null)
    status=$?
    if [ "$(wc -l < "$rows")" -eq "$before" ]; then
        said=$(printf '%s' "$said" | head -1 | tr -d "'\\\\")
        echo "failed('$file',$status,'$said')." >> "$rows"
    fi
done
