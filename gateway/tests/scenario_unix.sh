# What buses without CAN alone have.
echo "== buses that are wrong"
$bus_program serve vcan0 2>err; equal $? 2 && grep -q 'vcan0: Address already in use' err
check "a bus that is served already: a message and status 2" [ $? = 0 ]
$bus_program send vcan0 18FEF1 2>err; equal $? 2 && grep -q '18FEF1: no frame' err
check "a word that is no frame: a message and status 2" [ $? = 0 ]
echo '(0.0) vcan9 18FEF121#01' | $bus_program play 2>err; equal $? 2 && grep -q 'vcan9: No such file' err
check "a log that names a bus which is not there: a message and status 2" [ $? = 0 ]

echo "== arbitration"
bus_rate vcan1 20
$bus_program dump vcan1 >heard & listener=$!
sleep 0.2
for frame in 18FEF121#01 18FEF122#02 0CF00423#03 33C#04 00FEF324#05; do $bus_program send vcan1 $frame & sleep 0.02; done
within 5 grep -q '#02' heard
kill $listener; wait $listener 2>/dev/null
check "of the frames that wait the lowest identifier goes first, 11 bits before 29 that begin alike" equal "$(awk '{ sub(/.*#/, "", $3); printf $3 " " }' heard)" "01 05 04 03 02 "
bus_rate vcan1 0

echo "== rights of the sockets"
gateway_start --status-group $(id -g) --control control --control-group $(id -g)
check "the group's where a group is given" equal "$(stat -c '%a %g' $STATUS control | tr '\n' ' ')" "660 $(id -g) 660 $(id -g) "
check "the status tells how long a turn of the loop took" equal "$(status | grep -c '"loop":{"worst_us":[1-9][0-9]*,"recent_worst_us":[1-9]')" 1
gateway_stop

check "the sanitizers have nothing to say" equal "$(cat sanitizer.* 2>/dev/null)" ""
