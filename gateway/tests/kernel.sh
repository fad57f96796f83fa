# What gateway/test runs in the guest.
. /buses_kernel.sh
. /checks.sh
. /scenario.sh
. /scenario_kernel.sh
. /measure.sh
echo "$passed passed, $failed failed"
[ $failed = 0 ]
