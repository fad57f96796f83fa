# Buses of the guest's kernel: vcan, with can-utils. Before checks.sh.
PATH=/tools:/bin
RUN=/run/gateway
TMP=/tmp
PROGRAMS=
PREFIX=
OWNER=gateway
NOT_THERE='no such CAN interface'
DOWN=down
FD_FRAME=18FEF116##011
tc() { /tools/tc "$@"; } # busybox has one of its own
# The gateway runs as a user without rights.
gateway_program="/tools/setpriv --reuid=1000 --regid=1000 --clear-groups --no-new-privs /deorasaeng-gateway"
mkdir -p $RUN; chown $OWNER $RUN

bus_add() { ip link add dev $1 type vcan; ip link set up $1; }
bus_remove() { ip link del $1; }
# So many frames in ten seconds, 0: as fast as it goes. tc counts 16 bytes a frame.
bus_rate() { # BUS FRAMES
    if [ $2 = 0 ]; then tc qdisc del dev $1 root; else tc qdisc replace dev $1 root tbf rate $((128 * $2 / 10))bit burst 16 limit 4096; fi
}
bus_down() { ip link set down $1; }
bus_up() { bus_rate $1 $2; ip link set up $1; } # BUS FRAMES
rx() { cat /sys/class/net/$1/statistics/rx_packets; }

# All buses into $TMP/dump, a line a frame: (time) interface identifier#bytes.
dump_start() { candump -L -D $BUSES >$TMP/dump 2>/dev/null & dump=$!; sleep 0.5; }
dump_look() { :; }
dump_stop() { sleep 0.5; kill $dump; wait $dump 2>/dev/null; }
put() { cansend $1 $2; } # BUS FRAME
# Sends frames, a line each: interface identifier#bytes.
play() { awk '{ print "(0.000000) " $0 }' >$TMP/play; canplayer -t -g 0 -I $TMP/play; }
stream() { cangen $1 -g 5 -I $2 -e -L 8 -n $3; } # BUS ID COUNT: one each 5 ms
flood() { cangen $1 -g 0 -e -I r -L 8 -p 10 -n $2 >/dev/null 2>&1; } # BUS COUNT
