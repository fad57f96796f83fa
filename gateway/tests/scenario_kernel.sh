# What buses of a real kernel alone have: the kernel's J1939 stack, other kinds of interfaces, a queue that another program fills.
echo "== interfaces that are no CAN"
$gateway_program --name $NAME --address 128 vcan0 vcan1 vcan2 lo 2>/tmp/err; equal $? 2
check "an interface that is not CAN: status 2" [ $? = 0 ]

echo "== two claimers of the kernel's J1939 stack contend across the bridge"
gateway_start
dump_start
rm -f /tmp/high.acd /tmp/low.acd
j1939acd -r 100,101 -c /tmp/high.acd 1000000000000002 vcan2 >/tmp/high.out 2>&1 & high=$!
within 10 logged 'Recorded: NAME 1000000000000002, address 100'
check "one on bus 2 holds address 100" [ $? = 0 ]
j1939acd -r 100 -c /tmp/low.acd 1000000000000001 vcan1 >/tmp/low.out 2>&1 & low=$!
within 10 logged 'NAME 1000000000000002, address 101'
check "one on bus 1 with a lower NAME claims it: the other goes to the next" [ $? = 0 ]
cansend vcan0 18ED8021#4002FFFFFFFFFFFF; cansend vcan0 18ED8021#4003FFFFFFFFFFFF
within 5 idle; dump_stop
last_claim() { awk -v name=$1 '$2 == "vcan0" && substr($3, 1, 6) == "18EEFF" && substr($3, 10) == name { a = substr($3, 7, 2) } END { print a }' /tmp/dump; }
check "the lower NAME holds it" equal "$(last_claim 0100000000000010)" 64
check "the higher NAME went to the next" equal "$(last_claim 0200000000000010)" 65
check "function 64 lists each at its port" equal "$(stood vcan0 18ED2180#410264FFFFFFFFFF)$(stood vcan0 18ED2180#410365FFFFFFFFFF)" 11
check "the event is in the log" logged 'port 2: TookOver: NAME 1000000000000001, address 100, from NAME 1000000000000002'
kill $low $high
gateway_stop

echo "== a queue that another program fills"
gateway_start
tc qdisc add dev vcan1 root tbf rate 1024bit burst 16 limit 32
dump_start
cangen vcan1 -g 2 -I 18FFAA33 -e -L 1 -D 00 -i >/dev/null 2>&1 & other=$! # another program, which keeps the queue of two full
sleep 0.5
for n in 1 2 3 4 5 6 7 8; do echo "vcan0 18FEF121#B$n"; done | play
within 20 idle; kill $other; dump_stop
check "a full interface: ENOBUFS was met" [ "$(count 2 full)" -ge 1 ]
check "and nothing taken was lost" equal "$(awk '$2 == "vcan1" && $3 ~ /#B/ { split($3, f, "#"); printf f[2] " " }' /tmp/dump)" "B1 B2 B3 B4 B5 B6 B7 B8 "
gateway_stop
tc qdisc del dev vcan1 root
