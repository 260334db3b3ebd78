#!/usr/bin/env bash
# Tests the door (docs/SIGNING.md) over build/desk, or the program that DESK names: forgeries, a
# real sshd and agent, a browser with passkeys, a journal that is killed, cut and full. It installs
# what it needs of Debian, where this is root. `whole` is the long form, and says how fast the door
# is; other words are passed on to pytest. The last line is 'N checks, M wrong'.
set -euo pipefail
cd "$(dirname "$0")/.."
export PATH="$PATH:/usr/sbin:/sbin"
export DESK="${DESK:-$PWD/build/desk}"
. scripts/packages.sh
. scripts/suite.sh
bash relays/install.sh "${door_packages[@]}"
if [ ! -x "$DESK" ]; then
    echo "there is no program $DESK: run make desk"
    exit 1
fi
if [ "${1:-}" = whole ]; then
    export PLACES=60 ROWS=100000 FORGED=1000 RATE=1
    shift
fi
log=$(mktemp)
# (short: a socket below it has 107 bytes for its whole path)
base=${TMPDIR:-/tmp}/door.$$
trap 'rm -rf "$log" "$base"' EXIT
status=0
mapfile -t words < <(suite_words door)
/usr/bin/python3 -m pytest "${words[@]}" --durations=5 --basetemp "$base" \
    --dist loadgroup door/tests "$@" | tee "$log" || status=$?
count() {
    awk -v kind="$1" '/^[0-9]+ .* in [0-9.]+s/ {
        for (at = 2; at <= NF; at++) if ($at ~ "^" kind) sum += $(at - 1)
    } END { print sum + 0 }' "$log"
}
wrong=$(($(count failed) + $(count error)))
echo "$(($(count passed) + wrong)) checks, $wrong wrong"
[ "$status" = 0 ] && [ "$wrong" = 0 ]
