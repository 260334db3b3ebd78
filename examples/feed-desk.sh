#!/bin/sh
# Feeds a second desk: posts to the desk of this machine each message that the first desk holds and
# this one lacks, and its archives (`archives/*.messages` here) do not have: what was cut out of its
# store does not come back. It takes nothing away, stops nothing, and may be run as often as you
# like; the order does not matter. In a folder with auditor-feed.pem, auditor-feed.key and ca.pem:
#
#   feed-desk.sh https://desk.example chat
#
# `chat` is a relay of the roster, and ADDR in /etc/desk/serve.conf, or in the environment, says
# where the desk of this machine listens. It says what was posted, and why something was not; the
# status is 0 if this desk and its archives then have all that the first one held.
# Behind a door it feeds nothing: there desk-door bring does so, with people's signatures.
# While neither desk got a message since it last looked, it asks both how many they hold. Else it
# asks the first for what ends a day before that or later, and for what waits there: where that makes
# up its count, there is no more. Whole lists are fetched where it does not, and once an hour.
set -eu
umask 077
[ $# = 2 ] || {
    echo "usage: $0 DESK RELAY" >&2
    exit 2
}
first=$1 relay=$2 posted=0 refused=0
addr=${ADDR:-$(sed -n 's/^ADDR=//p' /etc/desk/serve.conf)}
case $addr in
    unix:/run/desk-posts/*)
        echo "feed-desk: this desk is behind a door, which takes what the first one's door has:" \
            "[doors] in /etc/desk/door.toml, and systemctl enable --now desk-bring.timer" >&2
        exit 2
        ;;
    unix:*) set -- --unix-socket "${addr#unix:}" http://desk ;;
    *) set -- "http://$addr" ;;
esac

# The last word is the desk of this machine, and those before it say how to reach it.
here() {
    route=$1
    shift
    curl -sS --max-time 50 "$@$route"
}

there() {
    curl -sSf --max-time 50 --cert auditor-feed.pem --key auditor-feed.key --cacert ca.pem \
        "$first$1"
}

# The messages of what a desk tells about requests, each on a line as it was posted.
messages() {
    python3 -I -c '
import json, sys
for name in json.load(sys.stdin)["names"]:
    for it in [*name["requests"], *(said["verdict"] for said in name["verdicts"])]:
        print(json.dumps(it, sort_keys=True, separators=(",", ":"), ensure_ascii=False))'
}

# The count in one of the lines of a file, the first desk's or that of the one here.
count() {
    sed -n "$1s/^\([0-9]\{1,9\}\) .*/\1/p" "$2"
}

archives() {
    [ ! -d archives ] || find archives -name '*Z.messages' -exec "$@" {} +
}

# Whether feed.first has what the first desk held when its count was the one in feed.alike, and
# whole lists were compared within an hour. (They are not readable where root ran it.)
is_known() {
    [ -r feed.first ] && [ -r feed.alike ] && [ -r feed.refused ] &&
        [ -n "$(find . -maxdepth 1 -name feed.whole -mmin -60)" ]
}

# What is new at the first desk, where what it tells makes up its count. A count that is smaller
# than before says that something was lost or cut out.
find_new() {
    is_known || return 1
    counted=$(count 1 feed.counts) held=$(count 2 feed.counts) before=$(count 2 feed.alike)
    [ "${counted:-0}" -ge "$(wc -l < feed.first)" ] || return 1
    [ "${held:-0}" -ge "${before:-0}" ] || return 1
    since=$(date -u -d "@$(($(stat -c %Y feed.first) - 86400))" +%Y%m%d%H%M%SZ)
    there "/v1/requests/after/$since" > feed.told && there /v1/parked > feed.parked || return 1
    messages < feed.told | LC_ALL=C sort -u - feed.parked feed.first > feed.first.new
    [ "$(wc -l < feed.first.new)" -ge "$counted" ] || return 1
    LC_ALL=C comm -23 feed.first.new feed.first > feed.more
    { archives grep -hxFf feed.more || true; } | LC_ALL=C sort -u > feed.known
    { LC_ALL=C comm -23 feed.more feed.known && cat feed.refused; } > feed.lacking
}

compare() {
    rm -f feed.whole
    there /v1/messages > feed.first.new
    here /v1/messages -f "$@" > feed.here
    { cat feed.here && archives cat; } | LC_ALL=C sort -u > feed.known
    LC_ALL=C comm -23 feed.first.new feed.known > feed.lacking
    : > feed.whole
}

# root may have run it here before the account that cron names, which cannot write root's files
rm -f feed.counts feed.told feed.parked feed.first.new feed.here feed.known feed.more feed.lacking \
    feed.message feed.refused.new feed.alike.new
there /v1/count > feed.counts
here /v1/count -f "$@" >> feed.counts
if is_known && cmp -s feed.counts feed.alike; then
    [ -s feed.refused ] || exit 0
    cp feed.refused feed.lacking
else
    find_new || compare "$@"
fi
: > feed.refused.new
while IFS= read -r message; do
    printf '%s' "$message" > feed.message
    said=$(here "/v1/relays/$relay/messages" --data-binary @feed.message "$@") || said='no answer'
    if [ "$said" = ack ]; then
        posted=$((posted + 1))
    else
        refused=$((refused + 1))
        printf '%s\n' "$message" >> feed.refused.new
        echo "feed-desk: $said: $message" >&2
    fi
done < feed.lacking
[ "$posted$refused" = 00 ] || echo "feed-desk: $posted posted, $refused refused"
# (in this order: whatever stops it here, nothing is forgotten)
mv -f feed.refused.new feed.refused
[ ! -e feed.first.new ] || mv -f feed.first.new feed.first
# (a message that came meanwhile changes a count)
{ head -n 1 feed.counts && here /v1/count -f "$@"; } > feed.alike.new
mv -f feed.alike.new feed.alike
[ "$refused" = 0 ] || exit 1
