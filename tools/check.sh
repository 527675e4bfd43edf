#!/usr/bin/env bash
# check.sh: what needs no proof, which .ci/run does after the gate: the tests of the tools, and whether the pages say
# what is so. Where bin/cti is there and newer than the crates, the cases and the commands of the pages go through it
# too, and with SWI-Prolog the tests of swi/. The status is 0 where all of it passes.
#
#     tools/check.sh
set -u -o pipefail
cd "$(dirname "$0")/.." || exit 2
failed=()

# Runs a command, and notes it if it fails.
pass() {
    echo "== $*"
    "$@" || failed+=("$*")
}

# Whether a program is there, and make would not make it anew.
is_new() {
    [ -x "$1" ] && make -q "$1" 2> /dev/null
}

pass python3 -B tools/test_build.py
pass python3 -B tools/test_run_cases.py
pass python3 -B tools/test_dist.py
pass python3 -B tools/test_crates.py
pass python3 -B tools/test_commits.py
pass python3 -B tools/test_completions.py
pass python3 -B tools/test_gate_page.py
pass tools/proved.py
pass tools/crates.py --check
pass tools/believe.py --check
pass tools/prose.py
# Commits that have landed cannot be changed, so their first lines fail nothing.
tools/commits.py --count
if is_new bin/cti; then
    pass tools/run_cases.py bin/cti
    is_new bin/cti-unproved && pass tools/run_cases.py bin/cti bin/cti-unproved
    pass tools/run_pages.py
    command -v swipl > /dev/null && CTI=$PWD/bin/cti pass tools/test_swi.sh
else
    echo "== bin/cti is not there, or older than the crates: nothing is tried with it"
fi
for it in "${failed[@]}"; do echo "failed: $it"; done
[ ${#failed[@]} = 0 ]
