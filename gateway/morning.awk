# A morning's traffic of one bus, without end, as a log for `deorasaeng-bus play`: claims at key-on, what the nodes there send all the time, and on the baler's bus a flood now and then.
# usage: awk -v bus=tractor|baler|sprayer|trailer -f gateway/morning.awk
function say(frame) { printf "(%d.%03d) %s %s\n", t / 1000, t % 1000, bus, frame }
function every(ms, frame) { if (t % ms == 0) say(frame) }
function byte(value) { return sprintf("%02X", value % 256) }
function word(value) { return byte(value) byte(int(value / 256)) } # least significant byte first

function tractor() {
    if (t == 0) { say("18EEFF00#0100200000000000"); say("18EEFFF0#02002000008400A0") } # the engine and the tractor ECU claim their addresses
    every(100, "0CF00400#F07D82" word(14400 + t % 800) "00F082")  # 61444: engine speed
    every(100, "0CFE48F0#" word(2500) word(t) "0000FF01")         # 65096: wheel-based speed and distance
    every(100, "0CFE49F0#" word(2480) word(t) "0000FFFF")         # 65097: ground-based speed and distance
    every(100, "0CFE43F0#" word(4320) "FFFFFFFFFF05")             # 65091: rear power take-off
    every(1000, "18FEE6F0#" byte(t / 250) "1E080B3526FFFF")       # 65254: time and date
}
function baler(  n) {
    if (t == 0) { say("18EEFF82#0300200000820EA0"); say("1CFE0D82#01FFFFFFFFFFFFFF") } # its claim; 65037: it is a working set of one
    every(50, "18FF0182#" word(9000 + t % 500) "FFFFFFFFFFFF")    # 65281: pressure of the chamber, its maker's own
    every(200, "0CCBF782#03004300" word(t / 40) "0000")           # 51968: process data to the task controller
    if (t % 15000 == 5000) for (n = 0; n < 300; n++) say("18FF7783#" word(n) "FFFFFFFFFFFF") # 65399: a sensor that has gone wild
}
function sprayer() {
    if (t == 0) say("18EEFF84#0400200000830CA0")
    every(100, "18FF1084#" byte(t / 100) "FFFFFFFFFFFFFF")        # 65296: sections of the boom
    every(1000, "0CCBF784#03008600" word(t / 100) "0000")
}
function trailer() {
    if (t == 0) say("18EEFF85#0500200000850AA0")
    every(250, "18FF2085#" word(8000 + t % 300) word(7900) "FFFFFFFF") # 65312: loads of the axles
}
BEGIN {
    for (t = 0; ; t += 10) {
        if (bus == "tractor") tractor()
        if (bus == "baler") baler()
        if (bus == "sprayer") sprayer()
        if (bus == "trailer") trailer()
        if (t % 1000 == 0) fflush()
    }
}
