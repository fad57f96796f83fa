# What the scenarios share on buses of either kind: checks, the gateway, its counts. buses_kernel.sh or buses_unix.sh comes before it and says, beside how buses are made, heard and sent on:
# RUN a folder, PROGRAMS where the programs are, gateway_program how the gateway is started, PREFIX what stands before a bus's name on its command line.
NAME=20001C000AC00123
LISTS=$RUN/lists
STATUS=$RUN/status
BUSES="vcan0 vcan1 vcan2 vcan3"
passed=0
failed=0

check() { # NAME, then a command that says whether it holds
    title=$1; shift
    if "$@"; then passed=$((passed + 1)); echo "ok    $title"; else failed=$((failed + 1)); echo "FAIL  $title"; fi
}
equal() { # GOT WANTED
    [ "$1" = "$2" ] || { echo "      got '$1', wanted '$2'"; false; }
}

# Waits up to SECONDS for a command to hold.
within() {
    tries=$(($1 * 10)); shift
    while [ $tries -gt 0 ]; do "$@" && return 0; tries=$((tries - 1)); sleep 0.1; done
    return 1
}
logged() { grep -q "$1" $RUN/log; }

interfaces() { # BUS ..: as the gateway is to be told them
    for bus in "$@"; do echo "$PREFIX$bus"; done
}
gateway_start() { # options beside NAME and address
    : >$RUN/log
    $gateway_program --name $NAME --address 128 --status $STATUS "$@" $(interfaces $BUSES) 2>$RUN/log &
    gateway=$!
    within 10 logged 'Claimed:'
}
gateway_stop() { # its status
    kill -TERM $gateway; wait $gateway
}
status() { $PROGRAMS/deorasaeng-status --json $STATUS; }
# A count of a port, the first of that name in its object.
count() { # PORT KEY
    status | sed 's/{"port":/\n&/g' | awk -v head="{\"port\":$1,\"interface\"" -v key="\"$2\":" \
        'index($0, head) == 1 { at = index($0, key); if (at) { rest = substr($0, at + length(key)); match(rest, /^[0-9]+/); print substr(rest, 1, RLENGTH) } exit }'
}
count_refused() { # PORT frames|messages NUMBER
    status | sed 's/{"port":/\n&/g' | awk -v head="{\"port\":$1,\"interface\"" -v want=$2 -v key="{\"number\":$3,\"count\":" \
        'index($0, head) == 1 { split($0, half, "\"messages\":"); text = want == "messages" ? half[2] : half[1]; at = index(text, key)
         if (at) { rest = substr(text, at + length(key)); match(rest, /^[0-9]+/); print substr(rest, 1, RLENGTH) } else print 0; exit }'
}
idle() { # nothing waits and nothing is in hand
    ! status | grep -q -E '"(waiting|in_hand)":[1-9]'
}

stood() { # INTERFACE FRAME: how often, by the dump
    awk -v i=$1 -v f=$2 '$2 == i && $3 == f { n++ } END { print n + 0 }' $TMP/dump
}
