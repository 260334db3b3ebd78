#!/usr/bin/env bash
# Tests the client and the relays: a real sshd, a real browser behind nginx, sudo, and relays that are killed. It
# installs what it needs of Debian, where this is root. The program is build/desk, or what DESK
# names. The last line is 'N checks, M wrong'. `crowd` names the timed test alone, `rest` the others;
# other words are passed on to pytest.
# CROWD=60 is the long form of test_crowd.py, FUZZ=20000 that of test_fuzz.py, SITES=200 that of
# test_two_relays.py, and YEAR=1 that of test_year.py; the browser's screenshots are left in
# build/relays-screenshots.
set -euo pipefail
cd "$(dirname "$0")/.."
export PATH="$PATH:/usr/sbin:/sbin"
export DESK="${DESK:-$PWD/build/desk}"

. scripts/packages.sh
. scripts/suite.sh
bash relays/install.sh "${relays_packages[@]}"
if [ ! -x "$DESK" ]; then
    echo "there is no program $DESK: run make desk"
    exit 1
fi
log=$(mktemp)
trap 'rm -rf "$log" "$base"' EXIT
status=0
# (short: a socket below it has 107 bytes for its whole path)
base=${TMPDIR:-/tmp}/t.$$
tests() {
    local words
    mapfile -t words < <(suite_words "relays-$1" "$2")
    /usr/bin/python3 -m pytest "${words[@]}" --durations=5 --basetemp "$base" "${@:3}" |
        tee -a "$log" || status=$?
}
# (each file of tests has sites of its own, so they go side by side; the crowd's answers are timed,
# so it goes alone)
crowd() {
    tests crowd 0 relays/tests/test_crowd.py
}
rest() {
    tests rest "" --dist loadfile --ignore relays/tests/test_crowd.py \
        steelnewt_client/tests relays/tests
}
case "$*" in
    '') rest && crowd ;;
    crowd | rest) "$1" ;;
    *) tests some "" --dist loadfile relays/tests "$@" ;;
esac
# how many there are of a kind, by the last line of each run (there may be none)
count() {
    awk -v kind="$1" '/^[0-9]+ .* in [0-9.]+s/ {
        for (at = 2; at <= NF; at++) if ($at ~ "^" kind) sum += $(at - 1)
    } END { print sum + 0 }' "$log"
}
wrong=$(($(count failed) + $(count error)))
echo "$(($(count passed) + wrong)) checks, $wrong wrong"
[ "$status" = 0 ] && [ "$wrong" = 0 ]
