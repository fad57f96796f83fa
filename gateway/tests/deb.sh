#!/usr/bin/env bash
# The Debian package in a fresh root (debootstrap, kept in target/gateway-root): installed, started on buses without CAN by its service's own command as its user, taken away. Needs root's rights, and
# installs debootstrap where it is not there. usage: make check-deb
set -euo pipefail
tests=$(cd "$(dirname "$0")" && pwd)
keep=$(cd "$tests/../.." && pwd)/target/gateway-root
root=$keep/try
RUN=$keep TMP=$keep
. "$tests/checks.sh"
as_root=(); [ "$(id -u)" = 0 ] || as_root=(sudo)
inside() { "${as_root[@]}" chroot "$root" "$@"; }
# As the service: its user, and no more rights than that.
as_service=("${as_root[@]}" chroot "$root" setpriv --reuid=deorasaeng --regid=deorasaeng --clear-groups --no-new-privs)
mkdir -p "$keep"
package=$(make -s --no-print-directory -C "$tests/.." deb)
if ! command -v debootstrap >/dev/null; then
    echo "check-deb: the Debian package debootstrap is needed and will be installed" >&2
    "${as_root[@]}" apt-get update -qq
    "${as_root[@]}" apt-get install -y -qq --no-install-recommends -o DPkg::Lock::Timeout=300 debootstrap >/dev/null
fi
if [ ! -d "$keep/fresh" ]; then
    read -r site release _ < <(apt-get indextargets --format '$(SITE) $(RELEASE)' 'Created-By: Packages' | sort -u)
    echo "check-deb: making a fresh $release of $site in target/gateway-root" >&2
    "${as_root[@]}" rm -rf "$keep/making"
    "${as_root[@]}" debootstrap --variant=minbase --include=adduser "$release" "$keep/making" "$site" >"$keep/debootstrap.log"
    "${as_root[@]}" mv "$keep/making" "$keep/fresh"
fi
"${as_root[@]}" rm -rf "$root"
"${as_root[@]}" cp -a "$keep/fresh" "$root"
processes=""
finish() { for process in $processes; do "${as_root[@]}" kill "$process" 2>/dev/null || :; done; "${as_root[@]}" rm -rf "$root"; }
trap finish EXIT

# What systemd makes of the unit's ExecStart= and of the file that it names: ${X} is a word, $X are words.
start=("${as_service[@]}" sh -c '. /etc/default/deorasaeng-gateway
eval "set -- $(sed -n "/^ExecStart=/ { s///; s/\${[A-Z]*}/\"&\"/g; p }" /usr/lib/systemd/system/deorasaeng-gateway.service)"
exec "$@"')
set +e
"${as_root[@]}" cp "$package" "$root/package.deb"
inside dpkg -i /package.deb >"$keep/dpkg.log" 2>&1
check "it installs" [ $? = 0 ]
check "its user has a folder and an empty lists file" equal "$(inside stat -c '%U %a %s' /var/lib/deorasaeng /var/lib/deorasaeng/lists | sed 's/700 .*/700/' | tr '\n' ';')" "deorasaeng 700;deorasaeng 600 0;"
check "the manual pages are there" equal "$(inside sh -c 'cat /usr/share/man/man1/deorasaeng-*.gz /usr/share/man/man8/deorasaeng-*.gz | gzip -d | grep -c "^.TH"')" "$(ls "$tests"/../man/* | wc -l)"
inside install -d -o deorasaeng -m 700 /run/deorasaeng
"${start[@]}" 2>"$keep/log"
check "without a NAME it does not start: a message and status 2" equal "$? $(grep -c -- '--name' "$keep/log" | sed 's/[1-9]/told/')" "2 told"

inside sed -i 's/^NAME=.*/NAME=20001C000AC00123/; s#^INTERFACES=.*#INTERFACES="unix:/run/deorasaeng/a unix:/run/deorasaeng/b"#' /etc/default/deorasaeng-gateway
"${as_service[@]}" deorasaeng-bus serve /run/deorasaeng/a /run/deorasaeng/b >"$keep/buses" & processes=$!
within 10 grep -q 'b: open' "$keep/buses"
"${start[@]}" 2>"$keep/log" & gateway=$!; processes="$gateway $processes"
check "with one it claims its address" within 20 logged 'Claimed: address 128'
check "the status is told" equal "$("${as_service[@]}" deorasaeng-status /run/deorasaeng/status | grep -c 'unix:/run/deorasaeng/. up ')" 2
"${as_service[@]}" deorasaeng-bus dump /run/deorasaeng/b >"$keep/dump" & processes="$! $processes"
sleep 1
"${as_service[@]}" deorasaeng-bus send /run/deorasaeng/a 18FEF121#01 18ED8021#06120004F000FFFF
check "a frame crosses" within 5 grep -q ' b 18FEF121#01' "$keep/dump"
check "a tool's list is saved" within 5 inside grep -q '^1 2 block 61444' /var/lib/deorasaeng/lists
inside dpkg -i /package.deb >>"$keep/dpkg.log" 2>&1
check "installed again it leaves the lists and what was set for the service" equal "$? $(inside grep -c '^1 2 block 61444' /var/lib/deorasaeng/lists) $(inside grep -c '^NAME=20001C000AC00123' /etc/default/deorasaeng-gateway)" "0 1 1"
"${as_root[@]}" kill -TERM $gateway; wait $gateway
check "SIGTERM: status 0 and a summary" equal "$? $(grep -c summary: "$keep/log")" "0 1"
inside dpkg -r deorasaeng-gateway >>"$keep/dpkg.log" 2>&1
check "removed, the lists and the settings stay" equal "$? $(inside ls /usr/bin /var/lib/deorasaeng /etc/default | grep -c -E '^deorasaeng|^lists$')" "0 2"
inside dpkg -P deorasaeng-gateway >>"$keep/dpkg.log" 2>&1
check "purged, nothing stays" equal "$? $(inside find / -xdev -name 'deorasaeng*' -not -path '/run/*' | wc -l)" "0 0"
echo "deb: $passed passed, $failed failed"
[ "$failed" = 0 ]
