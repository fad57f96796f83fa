#!/bin/sh
# gateway/demo for some seconds, and what it says to type. usage: tests/demo.sh
set -u
tests=$(cd "$(dirname "$0")" && pwd)
root=$(cd "$tests/../.." && pwd)
folder=target/gateway/demo
RUN=$root/$folder TMP=$RUN
. "$tests/checks.sh"
cd "$root"
rm -rf "$folder"; mkdir -p "$folder"
gateway/demo 8 $folder >$folder/said 2>&1 & demo=$!
within 30 grep -q 'Ctrl-C here ends it all' $folder/said
check "it says what to type" [ $? = 0 ]
sh -c "$(grep -o 'gateway/status .*' $folder/said)" >$folder/first 2>&1
check "the status: Claimed, four buses up, the lists" equal "$(grep -c 'Claimed, 4 ports' $folder/first) $(grep -c 'unix:.* up ' $folder/first) $(grep -c '1 to 2 pass: 65096 65097 65091 65254' $folder/first)" "1 4 1"
target/gateway/deorasaeng-bus dump $folder/baler $folder/tractor >$folder/dump 2>/dev/null & dump=$!
sleep 0.3
sh -c "$(grep -o 'target/gateway/deorasaeng-bus send [^ ]*tractor .*' $folder/said)"
check "a tool is answered" within 3 grep -q '18ED2180#012100' $folder/dump
check "of the tractor's PGNs the speed crosses to the baler and the engine's does not" equal "$(awk '$2 == "baler" { n[substr($3, 1, 8)]++ } END { print (n["0CFE48F0"] > 0) + 0, n["0CF00400"] + 0 }' $folder/dump)" "1 0"
sh -c "$(grep -o 'gateway/control .* add .*' $folder/said)" >>$folder/first 2>&1
check "what it says to type lets the engine's PGN cross too" within 3 grep -q ' baler 0CF00400#' $folder/dump
wait $demo
check "it ends with status 0, and nothing is left of it" equal "$? $(ls $folder | tr '\n' ' ')" "0 buses dump first lists said "
check "with a summary: all of the wild sensor's 300 frames stopped on the way to the tractor" grep -q 'port 1 (unix:tractor): .*stopped 300' $folder/said
wait $dump
echo "demo: $passed passed, $failed failed"
[ $failed = 0 ]
