#!/bin/sh
# test_swi.sh: runs the tests of the modules in swi/, outside the gate, where SWI-Prolog is installed. CTI names the program cti, and is
# bin/cti if it is not set.
#
#     tools/test_swi.sh
cd "$(dirname "$0")/.." || exit 2
CTI=${CTI:-bin/cti}
export CTI
command -v swipl > /dev/null || { echo "test_swi.sh: SWI-Prolog (swipl) is not installed"; exit 2; }
status=0
for test in swi/test_cti.pl swi/test_cti_file.pl swi/test_no_wrong_mode.pl swi/test_project.pl swi/test_answers.pl \
    swi/test_covered_answers.pl swi/test_report.pl swi/test_page.pl; do
    swipl -g run_tests -t halt "$test" || status=1
done
exit $status
