# The gateway against the kernel's own cangw, one after the other in the same boot. Run in the guest by gateway/test, after the scenarios.
echo "== measured: from vcan0 to three buses, all pairs cleared; $(uname -r), $(awk -F': ' '/model name/ { print $2; exit }' /proc/cpuinfo)"
field() { echo "$1" | awk -v key=$2 '{ for (i = 1; i < NF; i++) if ($i == key) { print $(i + 1); exit } }'; }
ratio() { awk -v a=$1 -v b=$2 'BEGIN { printf "%.2f", a / b }'; }
best() { # COUNT WINDOW: the run of five with the highest rate, the one that the machine's other work disturbed least
    for run in 1 2 3 4 5; do /load $1 $2 vcan0 vcan1; done | sort -k 6 -n | tail -n 1
}
for to in 1 2 3; do cangw -A -s vcan0 -d vcan$to -e; done
kernel_one=$(best 1000 1); kernel_many=$(best 2000 16)
cangw -F
gateway_start
gateway_one=$(best 1000 1); gateway_many=$(best 2000 16)
within 5 idle
gateway_stop
echo "      cangw,   one frame at a time: $kernel_one"
echo "      gateway, one frame at a time: $gateway_one"
echo "      cangw,   16 on the way:       $kernel_many"
echo "      gateway, 16 on the way:       $gateway_many"
echo "      gateway of cangw: rate $(ratio "$(field "$gateway_one" rate)" "$(field "$kernel_one" rate)") one at a time, $(ratio "$(field "$gateway_many" rate)" "$(field "$kernel_many" rate)") with 16 on the way; speed by the median delay $(ratio "$(field "$kernel_one" median)" "$(field "$gateway_one" median)")"
check "measured: every frame crossed the gateway" equal "$(field "$gateway_one" frames) $(field "$gateway_many" frames)" "1000 2000"
