#!/usr/bin/env bash
# What can be said of the packages of build/deb without installing them: lintian finds nothing that
# is not explained, the units are sound, and systemd rates what they leave open at most 2.0.
set -euo pipefail
cd "$(dirname "$0")/../.."
MOST=2.0
wrong=0 checks=0

verdict() {
    checks=$((checks + 1))
    if [ "$2" != 0 ]; then
        wrong=$((wrong + 1))
        echo "$1: otherwise"
    fi
}

status=0
lintian --allow-root --fail-on error,warning build/deb/*.deb || status=1
verdict lintian $status

room=$(mktemp -d)
trap 'rm -rf "$room"' EXIT
for deb in build/deb/*.deb; do
    dpkg-deb -x "$deb" "$room"
done
cd "$room/lib/systemd/system"
# (the programs that the units start are those of the packages, but for the machine's `install`)
sed -i "s,=/usr/\(bin\|lib/nagios\|libexec\|sbin\),=$room/usr/\1," ./*.service
sed -i "s,=$room\(/usr/bin/install \),=\1," ./*.service
sed -i "/^Documentation=/d" ./*.service
cp desk-fetch@.service desk-fetch@db1.service
cp desk-fetch@.timer desk-fetch@db1.timer
cp desk-consume@.service desk-consume@a.service
cp desk-end@.service desk-end@1.service
cp desk-failed@.service desk-failed@a.service
cp desk-reserve@.service desk-reserve@a.service
for unit in desk.service desk-reserve{.socket,@a.service} desk-watch.{service,timer} \
    desk-fetch@db1.service desk-fetch@db1.timer desk-sessions.{service,timer} \
    desk-check.{service,timer} desk-starts.{service,path} desk-{end@1,failed@a}.service \
    desk-relay-{post,page,notify}.service desk-{door,answers}.service desk-consume@a.service \
    desk-{backup,drill,follow,auditor}.service desk-{backup,drill,auditor}.timer; do
    status=0
    said=$(SYSTEMD_LOG_LEVEL=warning systemd-analyze verify --man=no "./$unit" 2>&1) || status=1
    # what the machine's own units say is not ours
    said=$(printf '%s\n' "$said" | grep desk || true)
    [ -z "$said" ] || { echo "$said"; status=1; }
    verdict "systemd-analyze verify $unit" $status
done
for unit in desk.service desk-reserve@a.service desk-fetch@db1.service \
    desk-relay-{post,page,notify}.service desk-{door,answers,auditor}.service \
    desk-consume@a.service; do
    line=$(systemd-analyze security --offline=yes --no-pager "./$unit" | grep 'Overall exposure')
    echo "$line" | sed 's/[^ -~]//g; s/^ *//'
    figure=$(printf '%s\n' "$line" | sed 's/.*: \([0-9.]*\) .*/\1/')
    status=0
    awk -v it="$figure" -v most="$MOST" 'BEGIN { exit !(it != "" && it + 0 <= most) }' || status=1
    verdict "systemd-analyze security $unit" $status
done
# `systemctl enable`, as docs/TEAM.md has it, starts each with the machine
wants=$room/etc/systemd/system
status=0
systemctl --root="$room" -q enable desk.service desk-fetch@db1.timer desk-consume@b || status=1
[ -L "$wants/multi-user.target.wants/desk.service" ] || status=1
[ -L "$wants/multi-user.target.wants/desk-consume@b.service" ] || status=1
[ -L "$wants/timers.target.wants/desk-fetch@db1.timer" ] || status=1
verdict "systemctl enable" $status
echo "lintian and systemd on the packages: $checks checks, $wrong wrong"
[ "$wrong" = 0 ]
