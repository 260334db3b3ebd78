#!/bin/bash
# What systemd would do with desk.service, in a test: stops, starts and reloads packaging/desk-serve
# of the folder that ROOM names. A file `kill` there says before or behind which verb the program
# that asks is killed (as `before reload`), by the signal of a file `signal`; a file `fail` which
# verb fails; and a file `hook` is a script that is run before the desk is told to reload, with the
# program that asks as CALLER.
set -u
pid=$ROOM/pid log=$ROOM/desk.log
runs() { [ "$(ps -o stat= -p "$1" | cut -c 1)" != Z ] && kill -0 "$1" 2> /dev/null; }
killed() {
    local signal
    [ "$(cat "$ROOM/kill" 2> /dev/null)" = "$1" ] || return 0
    rm "$ROOM/kill"
    signal=$(cat "$ROOM/signal" 2> /dev/null || echo KILL)
    kill "-$signal" "$PPID"
    # (who is killed before this asks for nothing; and systemd does one job at a time)
    [ "$signal ${1%% *}" != 'KILL before' ] || exit 1
}
stop() {
    [ -e "$pid" ] || return 0
    kill -TERM "$(cat "$pid")" 2> /dev/null
    for _ in $(seq 12000); do runs "$(cat "$pid")" || break; sleep 0.05; done
    rm "$pid"
}
as_served() {
    exec env -i PATH="$PATH" DESK="$REAL" ROSTER="$ROOM/etc/roster.toml" \
        BASE="$ROOM/etc/base.sudo" STORE="$ROOM/store/desk.db" ADDR="unix:$ROOM/desk.sock" "$@"
}
start() {
    stop
    : > "$log"
    as_served setsid "$SERVE" > "$log" 2>&1 < /dev/null &
    echo $! > "$pid"
    for _ in $(seq 12000); do
        grep -q 'listening at' "$log" && return 0
        runs "$(cat "$pid")" || break
        sleep 0.05
    done
    cat "$log" >&2
    return 1
}
# (as ExecReload says)
reload() {
    (as_served "$SERVE" --base) || return 1
    [ ! -e "$ROOM/hook" ] || { CALLER=$PPID bash "$ROOM/hook"; rm "$ROOM/hook"; }
    kill -HUP "$(cat "$pid")"
}
[ "$2" = desk ] || exit 9
killed "before $1"
if [ "$(cat "$ROOM/fail" 2> /dev/null)" = "$1" ]; then
    rm "$ROOM/fail"
    echo "systemctl: $1 fails" >&2
    exit 1
fi
case $1 in
    stop) stop ;;
    start) start || exit 1 ;;
    reload) reload || exit 1 ;;
    *) exit 9 ;;
esac
killed "behind $1"
exit 0
