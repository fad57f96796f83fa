# Buses without CAN, each served by a process of its own. Before checks.sh; $1 is the folder of the programs.
PROGRAMS=$(cd "$1" && pwd)
RUN=$(mktemp -d)
TMP=$RUN
PREFIX=unix:
OWNER=$(id -un)
NOT_THERE='No such file or directory'
DOWN=gone
FD_FRAME= # they carry none
gateway_program=$PROGRAMS/deorasaeng-gateway
bus_program=$PROGRAMS/deorasaeng-bus
cd "$RUN"
trap 'kill $(cat "$RUN"/served.*.pid "$RUN"/dump.*.pid 2>/dev/null) $gateway 2>/dev/null; rm -rf "$RUN"' EXIT
gateway=
export ASAN_OPTIONS="log_path=$RUN/sanitizer" UBSAN_OPTIONS="log_path=$RUN/sanitizer"

serve() { # BUS [BITS A SECOND]
    : >served.$1 # what the one before said is no word of this one
    $bus_program serve ${2:+--bitrate $2} $1 >served.$1 & echo $! >served.$1.pid
    within 5 grep -q "$1: open" served.$1
}
bus_add() { serve $1; }
bus_remove() { kill -KILL $(cat served.$1.pid); rm served.$1.pid; }
# So many frames of a byte in four seconds, 0: as fast as it goes.
bus_rate() { # BUS FRAMES
    bus_remove $1
    if [ $2 = 0 ]; then serve $1; else serve $1 $((75 * $2 / 4)); fi
}
bus_down() { bus_remove $1; }
bus_up() { # BUS FRAMES; the gateway is held until the dump has joined
    kill -STOP $gateway
    serve $1 $((75 * $2 / 4)); dump_add $1; sleep 0.2
    kill -CONT $gateway
}
rx() { # BUS: how many frames stood there
    kill -USR1 $(cat served.$1.pid); sleep 0.1
    tail -n 1 served.$1 | cut -d ' ' -f 2
}

# All buses into $TMP/dump, a line a frame: (time) bus identifier#bytes.
dumps=0
dump_add() { # BUS
    dumps=$((dumps + 1))
    $bus_program dump $1 >dump.$dumps 2>/dev/null & echo $! >dump.$dumps.pid
}
dump_start() { rm -f dump.*; dumps=0; for b in $BUSES; do dump_add $b; done; sleep 0.2; }
dump_look() { sort -s -k 1,1 dump.*[0-9] >dump; }
dump_stop() { sleep 0.1; kill $(cat dump.*.pid) 2>/dev/null; sleep 0.1; dump_look; }
put() { $bus_program send $1 $2; } # BUS FRAME
# Sends frames, a line each: bus identifier#bytes.
play() { awk '{ print "(0.0) " $0 }' | $bus_program play; }
stream() { awk -v n=$3 -v w="$1 $2" 'BEGIN { for (i = 0; i < n; i++) printf "(%.3f) %s#%016X\n", i * 0.005, w, i }' | $bus_program play; } # BUS ID COUNT: one each 5 ms
flood() { awk -v n=$2 -v bus=$1 'BEGIN { srand(substr(bus, 5)); for (i = 0; i < n; i++) printf "(0.0) %s %08X#%016X\n", bus, rand() * 536870912, i }' | $bus_program play; } # BUS COUNT
