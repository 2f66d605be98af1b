#!/bin/sh
# Runs each test of lease_test.py with its own server. The folder ARTIFACTS keeps the journal of each test that fails.
artifacts=${ARTIFACTS:-artifacts}
mkdir -p "$artifacts" || exit
result=0
for test in lends_the_output lends_it_again lends_it_after_a_crash; do
    journal=$artifacts/$test.script
    tools/with-server --journal "$journal" examples/ci/lease_test.py "$test"
    case $? in
        0) rm "$journal" ;;
        125 | 126 | 127) exit 2 ;; # no test ran
        *) result=1 ;;
    esac
done
exit $result
