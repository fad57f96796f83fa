#!/bin/sh
# page/demo for some seconds: it says where the page is and whom to sign in as, and that holds. usage: tests/demo.sh
set -u
tests=$(cd "$(dirname "$0")" && pwd)
root=$(cd "$tests/../.." && pwd)
folder=target/page/demo
RUN=$root/$folder TMP=$RUN
. "$root/gateway/tests/checks.sh"
cd "$root" || exit 2
rm -rf "$folder"; mkdir -p "$folder"
PAGE_LISTEN=127.0.0.1:0 page/demo 8 $folder >$folder/said 2>&1 & demo=$!
within 60 grep -q 'Ctrl-C here ends it all' $folder/said
check "it says where the page is" grep -q '^    http://127.0.0.1:[0-9]*/$' $folder/said
address=$(sed -n 's#^    \(http://.*\)/$#\1#p' $folder/said)
check "which is there" equal "$(curl -s "$address/" | grep -c '<title>Deorasaeng</title>')" 1
for user in owner fitter viewer; do
    password=$(sed -n "s/^    $user  //p" $folder/said)
    check "$user signs in as it says" equal "$(curl -s -H "Origin: $address" -H 'Content-Type: application/json' -d "{\"user\":\"$user\",\"password\":\"$password\"}" "$address/api/login" |
        sed 's/.*"role":"\([a-z]*\)".*/\1/')" $user
done
wait $demo
check "it ends with status 0" equal $? 0
check "and its sockets are gone" equal "$(cd $folder && ls -d status control 2>/dev/null)" ""
echo "demo: $passed passed, $failed failed"
[ $failed = 0 ]
