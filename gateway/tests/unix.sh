#!/bin/sh
# The whole program on buses without CAN, natively. Run by `make check` under the sanitizers. usage: tests/unix.sh PROGRAMS     the folder of the programs
set -u
tests=$(cd "$(dirname "$0")" && pwd)
. "$tests/buses_unix.sh"
. "$tests/checks.sh"
for b in $BUSES; do bus_add $b; done
. "$tests/scenario.sh"
. "$tests/scenario_unix.sh"
echo "unix: $passed passed, $failed failed"
[ $failed = 0 ]
