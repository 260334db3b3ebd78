#!/usr/bin/env bash
# Asks the desk about the policy of examples/, and prints what is asked and what is answered: over
# build/desk, or the program that DESK names.
set -uo pipefail
cd "$(dirname "$0")/.."
program=${DESK:-build/desk}

ask() {
    printf '$ desk %s\n' "$*"
    "$program" "$@" 2>&1
    printf '(status %s)\n\n' "$?"
}

ask check examples/base.sudo
ask decide examples/base.sudo ann db1 root 20260105085959Z /bin/ls
ask decide examples/base.sudo ann db1 root 20260105093000Z /bin/ls
ask decide examples/base.sudo ann db1 root 20260105093000Z /bin/ls -- -l
ask decide examples/base.sudo ann db1 root 20260105110001Z /bin/ls
ask decide examples/base.sudo ann db1 postgres 20260105093000Z /bin/ls
ask decide examples/base.sudo backup db2 postgres 20260301000000Z /usr/bin/pg_dump
ask check examples/team.sudo
ask decide examples/team.sudo omar web1 postgres 20260105093000Z /usr/bin/uptime
ask decide examples/team.sudo olga web1 root 20260105093000Z /usr/bin/systemctl restart postgresql
ask decide examples/team.sudo olga db1 root 20260105093000Z /usr/bin/systemctl restart postgresql
ask decide examples/team.sudo omar db1 root 20260105093000Z /usr/bin/systemctl restart postgresql
ask check examples/left_out.sudo
ask beyond examples/base.sudo examples/site.sudo
ask beyond examples/base.sudo examples/site.sudo --user backup
ask beyond examples/site.sudo examples/base.sudo

# A grant's life: approved before it is asked for, asked for, refused too late, and revoked; the
# host's file at each step, and what it decides.
with_messages() {
    local messages=$1
    shift
    printf '$ desk %s < %s\n' "$*" "$messages"
    "$program" "$@" < "$messages" 2>&1
    printf '(status %s)\n\n' "$?"
}

desk=(examples/roster.toml examples/site.sudo -)
with_messages examples/revoked.messages deliver "${desk[@]}" chat
with_messages examples/parked.messages deliver "${desk[@]}" fax
for step in parked asked approved refused revoked; do
    with_messages "examples/$step.messages" print "${desk[@]}" db1
done
with_messages examples/revoked.messages print "${desk[@]}" db1 --after 20260105103000Z
"$program" print "${desk[@]}" db1 < examples/revoked.messages > build/db1.sudo
for at in 20260105091459Z 20260105091500Z 20260105102959Z 20260105103000Z; do
    ask decide build/db1.sudo ann db1 root "$at" /usr/bin/id
done

# A desk in a file: what one run was told is there in the next, a repeat adds nothing, and another
# roster is refused.
rm -f build/demo.db build/demo.db-wal
kept=(examples/roster.toml examples/site.sudo build/demo.db)
with_messages examples/parked.messages deliver "${kept[@]}" chat
ask print "${kept[@]}" db1
with_messages examples/approved.messages deliver "${kept[@]}" mail
ask print "${kept[@]}" db1
ask review "${kept[@]}" 20260105093000Z
sed 's/"mail"/"mail", "post"/' examples/roster.toml > build/other.toml
ask print build/other.toml examples/site.sudo build/demo.db db1

# Bob, who approved, leaves the roster: the desk of the file is rebuilt, and ann's grant is gone.
# Rebuilt with the old roster, it is back.
sed 's/^bob = .*/bob = []/' examples/roster.toml > build/left.toml
left=(build/left.toml examples/site.sudo build/demo.db)
ask rebuild "${left[@]}"
ask print "${left[@]}" db1
ask rebuild "${kept[@]}"
ask print "${kept[@]}" db1

# The same over HTTP: the messages are posted, the host's file is fetched, and decides.
post() {
    printf '$ curl --data-binary LINE http://127.0.0.1:PORT%s < %s\n' "$1" "$2"
    while IFS= read -r line; do
        curl -s -m 20 --data-binary "$line" "http://$address$1"
    done < "$2"
    printf '\n'
}

get() {
    printf '$ curl http://127.0.0.1:PORT%s\n' "$1"
    curl -s -m 20 "http://$address$1"
    printf '\n'
}

printf '$ desk serve %s 127.0.0.1:0 --requests 8\n' "${desk[*]}"
coproc served { exec timeout 120 "$program" serve "${desk[@]}" 127.0.0.1:0 --requests 8; }
server=$served_PID
read -r listening address <&"${served[0]}"
printf '%s 127.0.0.1:PORT\n\n' "$listening"
post /v1/relays/mail/messages examples/parked.messages
get /v1/parked
post /v1/relays/chat/messages examples/approved.messages
get /v1/grants/20260105093000Z
get /v1/reviews/20260105093000Z
post /v1/relays/fax/messages examples/parked.messages
curl -s -m 20 -o build/fetched.sudo "http://$address/v1/hosts/db1/sudoers"
wait "$server"
printf '(status %s)\n\n' "$?"
ask check build/fetched.sudo
ask decide build/fetched.sudo ann db1 root 20260105093000Z /usr/bin/id

# The review of the same messages while the grant is in force and behind its end, and of an approval
# that waits.
for at in 20260105093000Z 20260105103000Z; do
    with_messages examples/revoked.messages review "${desk[@]}" "$at"
done
with_messages examples/parked.messages review "${desk[@]}" 20260105093000Z

# What the grant's lines allow beyond the base, and that the base allows nothing beyond the host's
# file.
ask beyond build/db1.sudo examples/site.sudo
ask beyond examples/site.sudo build/db1.sudo
