# The gateway on buses of either kind: each check by what stands on the buses, and by the status. Run by kernel.sh in the guest and by unix.sh natively.

echo "== command line and files"
$gateway_program --name $NAME --address 128 $(interfaces vcan0 vcan1 vcan2 can9) 2>$TMP/err; equal $? 2 && grep -q "can9: $NOT_THERE" $TMP/err
check "an interface that is not there: a message and status 2" [ $? = 0 ]
$gateway_program --name $NAME --address 254 $(interfaces $BUSES) 2>$TMP/err; equal $? 2
check "a bad option: status 2" [ $? = 0 ]
printf '1 2 block 61444\n1 2 pass 1\n' >$LISTS
$gateway_program --name $NAME --address 128 --lists $LISTS $(interfaces $BUSES) 2>$TMP/err; equal $? 2 && grep -q 'lists:2: the pair 1 to 2 has a line already' $TMP/err
check "a wrong lists file is refused by its line, status 2" [ $? = 0 ]

echo "== nothing crosses before the lists of the file stand"
printf '1 2 pass\n' >$LISTS; chown $OWNER $LISTS
dump_start
stream vcan0 18FEF110 200 & flow=$! # one each 5 ms
gateway_start --lists $LISTS
check "Start, Claimed after 250 ms" awk '/Start:/ { s = $1 } /Claimed:/ { c = $1 } END { d = int((c - s) * 1000 + 0.5); exit !(d >= 249 && d < 3000) }' $RUN/log
wait $flow; within 5 idle; dump_stop
check "a stream from before the start never stood on the bus whose pass list is empty" equal "$(grep -c 'vcan1 18FEF110' $TMP/dump)" 0
check "and stood on the others" [ "$(grep -c 'vcan2 18FEF110' $TMP/dump)" -gt 50 ]
check "status 0 after SIGTERM" gateway_stop
check "with a summary" logged 'summary: NAME 20001C000AC00123, address 128 Claimed'

echo "== each frame at every other bus once, never back"
: >$LISTS
gateway_start --lists $LISTS
dump_start
play <<'F'
vcan0 18FEF111#0102030405060708
vcan1 0CF00412#
vcan2 18EF2113#AA
vcan3 1CFFFF14#0011
F
within 5 idle; dump_stop
for frame in 18FEF111#0102030405060708 0CF00412# 18EF2113#AA 1CFFFF14#0011; do
    check "$frame stands once on each of the four buses" equal "$(stood vcan0 $frame)$(stood vcan1 $frame)$(stood vcan2 $frame)$(stood vcan3 $frame)" 1111
done
check "the status counts one in at each port and three out" equal "$(for p in 1 2 3 4; do echo "$(count $p in)/$(($(count $p out) - $(count $p own)))"; done | tr '\n' ' ')" "1/3 1/3 1/3 1/3 "
check "the socket's rights are the owner's" equal "$(stat -c '%a %U' $STATUS)" "600 $OWNER"

echo "== frames that are no matter of this bridge"
fd=${FD_FRAME:+1}; fd=${fd:-0}
dump_start
for again in 1 2; do
    for frame in 123#11 18FEF115#R $FD_FRAME 20000004#0000000000000000 18FEF1FF#01; do put vcan0 $frame; done
done
within 5 idle; dump_stop
check "11-bit, remote, FD, error frames and one refused with 5 stay where they are" equal "$(grep -c -v vcan0 $TMP/dump)" 0
check "counted" equal "$(count 1 eleven_bit) $(count 1 remote) $(count 1 fd) $(count 1 error) $(count_refused 1 frames 5)" "2 2 $((2 * fd)) 2 2"
check "each kind told once" equal "$(grep -c 'frames are not forwarded' $RUN/log)" $((3 + fd))

echo "== lists set by a tool, obeyed, saved"
dump_start
play <<'F'
vcan0 18ED8021#06120004F000FFFF
vcan0 18ED8021#001200FFFFFFFFFF
vcan0 18ED8021#061301F1FE00FFFF
F
sleep 0.5
play <<'F'
vcan0 0CF00421#01
vcan0 18FEF121#02
vcan1 0CF00422#03
F
within 5 idle; dump_stop
check "acknowledged at the arrival port" equal "$(stood vcan0 18E8FF80#0006FFFF2100ED00)" 2
check "the list is read back" equal "$(stood vcan0 18ED2180#01120004F000FFFF)" 1
check "answers nowhere else" equal "$(grep -c -E 'vcan[123] 18E[8D]' $TMP/dump)" 0
check "a blocked PGN stands on the other buses alone" equal "$(stood vcan1 0CF00421#01)$(stood vcan2 0CF00421#01)$(stood vcan3 0CF00421#01)" 001
check "a pass list lets its PGN cross" equal "$(stood vcan1 18FEF121#02)$(stood vcan2 18FEF121#02)$(stood vcan3 18FEF121#02)" 111
check "the other direction is untouched" equal "$(stood vcan0 0CF00422#03)$(stood vcan2 0CF00422#03)$(stood vcan3 0CF00422#03)" 111
check "saved" equal "$(grep -v '#' $LISTS | tr '\n' ';')" "1 2 block 61444;1 3 pass 65265;"

echo "== the old box's attack, from every port"
before=$(status | sed 's/.*"lists":\(.*\),"lists_saved.*/\1/')
dump_start
for p in 1 2 3 4; do
    for pair in 12 13 14 21 23 24 31 32 34 41 42 43; do echo "vcan$((p - 1)) 18ED802$p#00${pair}FFFFFFFFFFFF"; done
    # Clear, and Add of a PGN, on the pairs between two neighbours; their addresses
    for pair in 23 24 32 34 42 43; do [ $p = 1 ] || case $pair in *$p*) ;; *) echo "vcan$((p - 1)) 18ED802$p#04${pair}FFFFFFFFFFFF"; esac; done
    for q in 1 2 3 4; do echo "vcan$((p - 1)) 18ED802$p#400${q}FFFFFFFFFFFF"; done
done >$TMP/attack
# one message at a time, as the standard has it
while read -r line; do echo "$line" | play; done <$TMP/attack
within 5 idle; dump_stop
replies() { grep -c "$1 18ED2${2}80#01" $TMP/dump; }
denied() { grep -c "$1 18E8FF80#0200FFFF2${2}00ED00" $TMP/dump; }
check "port 1 reads all twelve pairs" equal "$(replies vcan0 1) $(denied vcan0 1)" "12 0"
for p in 2 3 4; do check "port $p reads its own six pairs and is denied the others" equal "$(replies vcan$((p - 1)) $p) $(denied vcan$((p - 1)) $p)" "6 6"; done
for p in 2 3 4; do check "port $p may not clear a neighbour's pair" equal "$(grep -c "vcan$((p - 1)) 18E8FF80#0204FFFF2${p}00ED00" $TMP/dump)" 2; done
for p in 2 3 4; do check "port $p is told its own addresses alone" equal "$(grep -c "vcan$((p - 1)) 18ED2${p}80#41" $TMP/dump) $(grep -c "vcan$((p - 1)) 18E8FF80#0240FFFF2${p}00ED00" $TMP/dump)" "1 3"; done
check "no answer on another bus" equal "$(awk '$3 ~ /^18ED2[1-4]80#/ && substr($2, 5, 1) + 1 != substr($3, 6, 1)' $TMP/dump | wc -l)" 0
check "the lists are what they were" equal "$(status | sed 's/.*"lists":\(.*\),"lists_saved.*/\1/')" "$before"

echo "== SIGKILL and start again"
kill -KILL $gateway; wait $gateway 2>/dev/null
check "starts again beside the old socket" gateway_start --lists $LISTS
check "with the lists as they were" equal "$(status | sed 's/.*"lists":\(.*\),"lists_saved.*/\1/')" "$before"
dump_start
play <<'F'
vcan0 0CF00421#04
F
within 5 idle; dump_stop
check "and obeyed" equal "$(stood vcan1 0CF00421#04)$(stood vcan3 0CF00421#04)" 01
dump_start
play <<'F'
vcan0 18ED8021#021200F200FFFFFF
vcan0 18ED8021#0012FFFFFFFFFFFF
F
within 5 idle; dump_stop
check "a reply over 8 bytes is told as not sent" logged 'reply of 9 bytes to address 33 not sent'
gateway_stop

echo "== the unit's address defended and lost"
gateway_start
dump_start
play <<'F'
vcan1 18EEFF80#FFFFFFFFFFFFFF7F
F
sleep 0.5
check "a higher NAME: Defended" logged 'port 2: Defended: NAME 7FFFFFFFFFFFFFFF, address 128'
play <<'F'
vcan2 18EEFF80#0300000000000010
F
within 5 idle; dump_stop
check "with the unit's claim on all four buses" equal "$(for b in 0 1 2 3; do stood vcan$b 18EEFF80#2301C00A001C0020; done | tr -d '\n')" 1111
check "a lower NAME: Displaced" logged 'port 3: Displaced: NAME 1000000000000003, address 128'
check "and cannot-claim on all four" equal "$(for b in 0 1 2 3; do stood vcan$b 18EEFFFE#2301C00A001C0020; done | tr -d '\n')" 1111
check "the status says Lost" equal "$(status | sed 's/.*"state":"\([A-Z][a-z]*\)","address":\([a-z0-9]*\).*/\1 \2/')" "Lost null"
dump_start
put vcan0 18FEF121#05
within 5 idle; dump_stop
check "frames still cross" equal "$(stood vcan3 18FEF121#05)" 1
gateway_stop

echo "== a slow bus"
bus_rate vcan1 20
gateway_start
within 5 idle
dump_start
for n in 01 02 03 04 05 06 07 08; do echo "vcan0 18FEF121#$n"; done >$TMP/ranks
for n in 11 12 13 14; do echo "vcan0 0CF00421#$n"; done >>$TMP/ranks
for n in 21 22; do echo "vcan0 1CFEF221#$n"; done >>$TMP/ranks
echo "vcan0 00FEF321#31" >>$TMP/ranks
play <$TMP/ranks
within 20 idle; dump_stop
slow=$(awk '$2 == "vcan1" { split($3, f, "#"); printf f[2] " " }' $TMP/dump)
# one frame left at once and one was with the kernel before the others came
check "rank decides, equal ranks keep their order" sh -c "echo '$slow' | grep -q -E '^01 (02 (03 )?)?31 11 12 13 14 (02 )?(03 )?04 05 06 07 08 21 22 $' || { echo '      got $slow'; false; }"
check "a fast bus does not wait for it" equal "$(awk '$2 == "vcan1" { slow++ } $2 == "vcan2" { fast++; behind = slow } END { print fast, (behind < 6) }' $TMP/dump)" "15 1"
gateway_stop

bus_rate vcan1 5
gateway_start
within 5 idle
dump_start
for n in 1 2 3 4 5; do echo "vcan0 18FEF121#A$n"; done | play
bus_down vcan1
for n in 6 7 8; do echo "vcan0 18FEF121#A$n"; done | play
within 5 logged "vcan1): $DOWN"
sleep 0.3; dump_look
check "$DOWN: told once, its frames wait, the others go on" equal "$(grep -c "vcan1): $DOWN" $RUN/log) $(count 2 waiting | sed 's/[1-9]/some/') $(stood vcan2 18FEF121#A8)" "1 some 1"
bus_up vcan1 80
within 20 idle; dump_stop
check "up again: every frame stands on the bus, in order" equal "$(awk '$2 == "vcan1" && $3 ~ /#A/ { split($3, f, "#"); if (f[2] != last) printf f[2] " "; last = f[2] }' $TMP/dump)" "A1 A2 A3 A4 A5 A6 A7 A8 "
check "the frame that was with the kernel was given again" [ "$(count 2 again)" -ge 1 ]

stream vcan0 18FEF121 60
within 20 idle
check "what the unit loses is counted and told" equal "$([ "$(count 2 lost)" -gt 0 ] && grep -c "port 2 (${PREFIX}vcan1): queue full" $RUN/log | sed 's/[1-9]/told/') $(count 3 lost)" "told 0"
gateway_stop
bus_rate vcan1 0

echo "== bus-off"
gateway_start
within 5 idle
dump_start
put vcan2 20000040#0000000000000000; sleep 0.3
play <<'F'
vcan0 18FEF121#D1
F
sleep 0.5; dump_look
check "off the bus: the frame waits" equal "$(stood vcan2 18FEF121#D1) $(count 3 waiting)" "0 1"
put vcan2 20000100#0000000000000000
within 5 idle; dump_stop
check "restarted: it is sent" equal "$(stood vcan2 18FEF121#D1)" 1
bus_remove vcan3; sleep 0.3
check "an interface that is taken away: told" logged "port 4 (${PREFIX}vcan3): gone"
play <<'F'
vcan0 18FEF121#D2
F
bus_add vcan3; within 5 logged "port 4 (${PREFIX}vcan3): up"
dump_start; within 5 idle
play <<'F'
vcan3 18FEF124#D3
F
within 5 idle; dump_stop
check "and put back: frames cross from it again" equal "$(stood vcan0 18FEF124#D3)$(stood vcan1 18FEF124#D3)" 11
gateway_stop

echo "== a flood on all four buses"
for b in 0 1 2 3; do eval "rx$b=$(rx vcan$b)"; done
gateway_start
for b in 0 1 2 3; do flood vcan$b 4000 & eval "flood$b=$!"; done
wait $flood0 $flood1 $flood2 $flood3
within 20 idle; sleep 0.3
asked=0; met=0
for p in 1 2 3 4; do
    b=$((p - 1)); eval "base=\$rx$b"
    on_bus=$(($(rx vcan$b) - base))
    in=$(count $p in); refused=$(status | sed 's/{"port":/\n&/g' | awk -v head="{\"port\":$p,\"interface\"" 'index($0, head) == 1 { split($0, half, "\"other\":"); text = half[1]; n = 0
        while (match(text, /"count":[0-9]+/)) { n += substr(text, RSTART + 8, RLENGTH - 8); text = substr(text, RSTART + RLENGTH) } print n; exit }')
    echo "      port $p: on the bus $on_bus; in $in, missed $(count $p missed), refused $refused, consumed $(count $p consumed); out $(count $p out), stopped $(count $p stopped), lost $(count $p lost), assumed $(count $p assumed)"
    check "port $p: 4000 frames and what went out stand on the bus, and all of it was read or counted as missed" \
        equal "$on_bus $((in + $(count $p echoes) + $(count $p missed)))" "$((4000 + $(count $p out))) $on_bus"
    check "port $p: accepted and own = out, none waiting" equal "$(($(count $p accepted) + $(count $p own)))" "$(count $p out)"
    asked=$((asked + 3 * (in - refused - $(count $p consumed))))
    met=$((met + $(count $p accepted) + $(count $p stopped) + $(count $p lost)))
done
check "in = out + stopped + lost + consumed + refused, over the three exits of each frame" equal "$met" "$asked"
gateway_stop

echo "== eight buses, and two"
for b in 4 5 6 7; do bus_add vcan$b; done
BUSES="vcan0 vcan1 vcan2 vcan3 vcan4 vcan5 vcan6 vcan7"
check "eight interfaces: Claimed" gateway_start
dump_start
play <<'F'
vcan7 18FEF118#08
vcan7 18ED8028#06180004F000FFFF
F
sleep 0.5
play <<'F'
vcan0 0CF00421#09
vcan7 18ED8028#0012FFFFFFFFFFFF
vcan7 18ED8028#4008FFFFFFFFFFFF
F
within 5 idle; dump_stop
on() { for b in 0 1 2 3 4 5 6 7; do stood vcan$b $1; done | tr -d '\n'; }
check "a frame from the eighth bus stands once on each" equal "$(on 18FEF118#08)" 11111111
check "a list from 1 to 8 stops its PGN there alone" equal "$(on 0CF00421#09)" 11111110
check "port 8 reads its addresses and not the pair 1 to 2" equal "$(stood vcan7 18ED2880#4108FFFFFFFFFFFF)$(stood vcan7 18E8FF80#0200FFFF2800ED00)" 11
check "the status tells eight ports" equal "$(status | sed 's/.*"ports":\([0-9]*\),"state":"Claimed".*/\1/')" 8
gateway_stop
BUSES="vcan0 vcan1"
check "two interfaces: Claimed" gateway_start
dump_start
play <<'F'
vcan1 18FEF119#0A
F
within 5 idle; dump_stop
check "a frame stands once on each of the two" equal "$(stood vcan0 18FEF119#0A)$(stood vcan1 18FEF119#0A)" 11
gateway_stop
BUSES="vcan0 vcan1 vcan2 vcan3"
for b in 4 5 6 7; do bus_remove vcan$b; done
