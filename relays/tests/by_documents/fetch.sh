#!/bin/sh
# fetch.sh SOCKET HOST FILE STATE: a fetcher in shell, with curl, by docs/HTTP.md alone. STATE has
# what FILE is made of. Status 1: FILE stays as it is.
set -eu
socket=$1 host=$2 file=$3 state=$4
room=$(mktemp -d)
trap 'rm -rf "$room"' EXIT

stays() {
    echo "the file stays: $1"
    exit 1
}

ask() {
    curl -s --max-time 60 --unix-socket "$socket" -D "$room/head" -o "$room/$2" \
        -w '%{http_code}' "http://desk$1"
}

status=$(ask "/v1/hosts/$host/at/$(date -u -d '1 hour ago' +%Y%m%d%H%M%SZ)" answer) ||
    stays 'no whole answer'
[ "$status" = 200 ] || stays "$status $(head -c 60 "$room/answer")"
length=$(tr -d '\r' < "$room/head" | sed -n 's/^content-length: *//Ip')
[ "$length" = "$(wc -c < "$room/answer")" ] || stays 'nobody sees whether it came whole'
made=$(head -n 1 "$room/answer")
printf '%s\n' "$made" | grep -Eqx '(0|[1-9][0-9]*) [0-9a-f]{64} [0-9a-f]{64}' || stays 'no count'
tail -n +2 "$room/answer" > "$room/new"
[ -z "$(tail -c 1 "$room/new" | tr -d '\n')" ] || stays 'its last line has no end'

item='!?([a-z_][a-z0-9._-]*|[A-Z][A-Z0-9_]*)'
items="$item(, $item)*"
alias='(User|Runas|Host|Cmnd)_Alias [A-Z][A-Z0-9_]* = [ -~]+'
! grep -Evx "$items $items = \($items\) [ -~]+|$alias" "$room/new" || stays 'a line is no desk'\''s'

# whether the file begins with the base that it names
base=${made##* } lines=0
while [ "$(head -n "$lines" "$room/new" | sha256sum)" != "$base  -" ]; do
    [ "$lines" -lt "$(wc -l < "$room/new")" ] || stays 'it does not begin with its base'
    lines=$((lines + 1))
done

if [ -e "$state" ]; then
    was=$(cat "$state")
    [ "${made%% *}" -ge "${was%% *}" ] || stays 'the desk is behind'
    if [ "${made#* }" != "${was#* }" ]; then
        status=$(ask /v1/history history) && [ "$status" = 200 ] ||
            stays 'another roster or base, and no history'
        tail -n 1 "$room/history" | grep -q " ${made#* }$" || stays 'its history is another one'
        sed '$d' "$room/history" | grep -q " ${was#* }$" || stays 'its history lacks what was here'
    fi
fi
visudo -qcf "$room/new" || stays 'sudo does not read it'
# (what it will not go below is on the disk before the file)
printf '%s\n' "$made" > "$state.new"
sync "$state.new"
mv "$state.new" "$state"
install -m 0440 "$room/new" "$file.new~"
sync "$file.new~"
mv "$file.new~" "$file"
echo "taken: ${made%% *} messages"
