#!/usr/bin/env bash
# The page's Debian package beside the gateway's, on a copy of this machine that lasts as long as the test (an overlay in memory, in a mount namespace of its own): installed, both started by their services' own
# commands as their users, the page asked, taken away. Needs root's rights. usage: make check-deb
set -euo pipefail
tests=$(cd "$(dirname "$0")" && pwd)
clone=$(cd "$tests/../.." && pwd)
if [ -z "${PAGE_DEB_PACKAGES:-}" ]; then
    PAGE_DEB_PACKAGES="$(make -s --no-print-directory -C "$clone/gateway" deb) $(make -s --no-print-directory -C "$clone/page" deb)"
    command -v curl >/dev/null || "$clone/scripts/install" curl
    as_root=(); [ "$(id -u)" = 0 ] || as_root=(sudo)
    exec "${as_root[@]}" env PAGE_DEB_PACKAGES="$PAGE_DEB_PACKAGES" unshare --mount "$0"
fi
read -r gateway_package page_package <<<"$PAGE_DEB_PACKAGES"
keep=$(mktemp -d /dev/shm/page-deb.XXXXXX)
root=$keep/root
RUN=$keep TMP=$keep
. "$clone/gateway/tests/checks.sh"
inside() { chroot "$root" "$@"; }
processes=""
finish() {
    for process in $processes; do kill "$process" 2>/dev/null || :; done
    sleep 0.5
    umount -R -l "$root"
    rm -rf "$keep"
}
trap finish EXIT
: >"$keep/log" >"$keep/page.log"
mkdir "$keep/upper" "$keep/work" "$root"
mount -t overlay overlay -o "lowerdir=/,upperdir=$keep/upper,workdir=$keep/work" "$root"
mount --bind /dev "$root/dev"
mount -t proc proc "$root/proc"
mount -t tmpfs tmpfs "$root/run"

# What systemd makes of a unit's ExecStart= and of the file that it names: ${X} is a word, $X are words. As the unit's user, with its groups and no more rights than that.
start() { # SERVICE USER, and setpriv's word on groups; in a process of its own, which becomes it
    exec chroot "$root" setpriv --reuid="$2" --regid="$2" "$3" --no-new-privs sh -c ". /etc/default/$1
eval \"set -- \$(sed -n '/^ExecStart=/ { s///; s/\${[A-Z]*}/\"&\"/g; p }' /usr/lib/systemd/system/$1.service)\"
exec \"\$@\""
}
set +e
cp "$gateway_package" "$root/gateway.deb"; cp "$page_package" "$root/page.deb"
inside dpkg -i /gateway.deb /page.deb >"$keep/dpkg.log" 2>&1
check "both install" [ $? = 0 ]
check "the users file is empty, and the page's user may read it" equal "$(inside stat -c '%U %G %a %s' /etc/deorasaeng/users)" "root deorasaeng-page 640 0"
inside sed -i 's/^NAME=.*/NAME=20001C000AC00123/; s#^INTERFACES=.*#INTERFACES="unix:/run/deorasaeng/a unix:/run/deorasaeng/b"#; s#^OPTIONS=.*#OPTIONS="--status-group deorasaeng --control /run/deorasaeng/control"#' \
    /etc/default/deorasaeng-gateway
inside sed -i 's#^OPTIONS=.*#OPTIONS="--listen 127.0.0.1:0"#' /etc/default/deorasaeng-page
inside install -d -o deorasaeng -g deorasaeng -m 750 /run/deorasaeng
echo 'a good password' | inside deorasaeng-page --users /etc/deorasaeng/users --set anna owner
check "a user is set, and the file stays as it was" equal "$? $(inside stat -c '%U %G %a' /etc/deorasaeng/users)" "0 root deorasaeng-page 640"
(exec chroot "$root" setpriv --reuid=deorasaeng --regid=deorasaeng --clear-groups deorasaeng-bus serve /run/deorasaeng/a /run/deorasaeng/b >"$keep/buses") & processes=$!
within 20 grep -q 'b: open' "$keep/buses"
start deorasaeng-gateway deorasaeng --clear-groups 2>"$keep/log" & processes="$! $processes"
check "the gateway claims its address" within 30 logged 'Claimed: address 128'
start deorasaeng-page deorasaeng-page --init-groups 2>"$keep/page.log" & page=$!; processes="$page $processes"
check "the page reaches it as a user of its own" within 20 grep -q 'the gateway answers' "$keep/page.log"
address=$(sed -n 's#.*listens at \(http://[^/]*\)/.*#\1#p' "$keep/page.log")
answer=$(curl -s -c "$keep/cookies" -H "Origin: $address" -H 'Content-Type: application/json' -d '{"user":"anna","password":"a good password"}' "$address/api/login")
check "anna signs in" equal "$(echo "$answer" | sed 's/.*"role":"\([a-z]*\)".*/\1/')" owner
token=$(echo "$answer" | sed 's/.*"token":"\([0-9a-f]*\)".*/\1/')
answer=$(curl -s -b "$keep/cookies" -H "X-Token: $token" -H "Origin: $address" -H 'Content-Type: application/json' -d '{"do":"create","from":1,"to":2,"mode":"block","pgns":[61444]}' "$address/api/command")
check "and makes a list" equal "$(echo "$answer" | sed 's/,"words.*//')" '{"number":0'
check "which the gateway saves" within 10 inside grep -q '^1 2 block 61444' /var/lib/deorasaeng/lists
check "the page's user may not read the lists file itself" equal "$(inside setpriv --reuid=deorasaeng-page --regid=deorasaeng-page --init-groups cat /var/lib/deorasaeng/lists 2>/dev/null)" ""
kill -TERM $page; wait $page
check "SIGTERM: status 0" equal $? 0
inside dpkg -r deorasaeng-page >>"$keep/dpkg.log" 2>&1
check "removed, the users stay" equal "$? $(inside sh -c 'ls /usr/bin/deorasaeng-page 2>/dev/null; grep -c "^anna owner" /etc/deorasaeng/users')" "0 1"
inside dpkg -P deorasaeng-page >>"$keep/dpkg.log" 2>&1
check "purged, nothing stays" equal "$? $(inside find /etc /usr /var -xdev \( -name '*deorasaeng-page*' -o -path /etc/deorasaeng \) | wc -l)" "0 0"
echo "deb: $passed passed, $failed failed"
[ "$failed" = 0 ]
