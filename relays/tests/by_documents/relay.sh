#!/bin/sh
# relay.sh FOLDER SOCKET RELAY [AT]: a relay in shell, with curl and jq, by docs/HTTP.md and
# docs/MESSAGES.md alone. Each line of its input has the members of a message, in any order. With a
# moment AT it tells what became of all that is open then.
set -eu
folder=$1 socket=$2 relay=$3

ask() {
    curl -s --max-time 20 --unix-socket "$socket" "$@"
}

tell() {
    names='.names[] | "\(.by) \(.no) \(.status) \(.may_approve.people // [] | join(","))"'
    if ! ask -f "http://desk/v1/open/$1" > "$folder/told" ||
        ! jq -r "$names" "$folder/told" 2> /dev/null; then
        echo 'not known: the desk does not answer'
        exit 3
    fi
}

keep() {
    number=$(find "$folder" -name '*.*' | wc -l)
    while IFS= read -r line; do
        number=$((number + 1))
        printf '%s' "$line" |
            jq -cjS 'if .hosts then .hosts |= unique | .cmnds |= unique else . end' > "$folder/new"
        sync "$folder/new"
        mv "$folder/new" "$folder/$number.kept"
        sync "$folder"
    done
}

# What a status and a body mean: done, refused, mend or again.
judge() {
    case $1 in
        'ack 200') echo done ;;
        [AM][0-9]*' 400' | [AM][0-9]*' 403' | [AM][0-9]*' 413') echo refused ;;
        'T7 ShortBody 400') echo again ;;
        [TP][0-9]*' 40'[0345] | [TP][0-9]*' 411') echo mend ;;
        *) echo again ;;
    esac
}

post() {
    [ -e "$1" ] || return 0
    # (a reply that was cut is none)
    said=$(ask -H 'Expect:' -w ' %{http_code}' --data-binary "@$1" \
        "http://desk/v1/relays/$relay/messages") || said=
    said=$(printf '%s' "$said" | tr '\n' ' ' | tr -s ' ')
    became=$(judge "$said")
    case $became in done | refused) mv "$1" "${1%.kept}.$became" ;; esac
    echo "$became $said"
}

if [ $# -gt 3 ]; then
    tell "$4"
    exit
fi
keep
for file in "$folder"/*.kept; do
    post "$file"
done
