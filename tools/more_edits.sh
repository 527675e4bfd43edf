#!/usr/bin/env bash
# Tries the wrong edits that the gate leaves out, crates/NAME/must-fail/*.md, with those of their crates that it tries.
# Usage: tools/more_edits.sh NAME..      (each NAME is a crate; it is proved first, if that has not been done)
#        tools/more_edits.sh --day N     (a seventh of those of all crates: N from 0 to 6, as the day of the week)
set -eu
cd "$(dirname "$0")/.."
left_out() {
    if [ "${1-}" = --day ]; then
        ls crates/*/must-fail/*.md | awk -v day="${2:?--day N}" 'NR % 7 == day % 7'
    else
        for name in "$@"; do
            ls crates/"$name"/must-fail/*.md 2> /dev/null || true
        done
    fi
}
moved=()
back() {
    for it in "${moved[@]}"; do mv "$it.edit" "$it.md"; done
}
trap back EXIT
names=("$@")
[ "${1-}" != --day ] || mapfile -t names < <(left_out "$@" | cut -d/ -f2 | sort -u)
while read -r it; do
    mv "$it" "${it%.md}.edit"
    moved+=("${it%.md}")
done < <(left_out "$@")
rt must-fail "${names[@]}"
