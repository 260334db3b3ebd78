#!/bin/sh
# What systemd would do with a unit, in a test: starts its ExecStart as its User and Group, with its
# RuntimeDirectory; restarts Apache; reloads nginx.
set -eu
case $1 in
    enable)
        unit=/lib/systemd/system/$3.service
        line=$(sed -n 's/^ExecStart=//p' "$unit")
        user=$(sed -n 's/^User=//p' "$unit")
        group=$(sed -n 's/^Group=//p' "$unit")
        group=${group:-$user}
        run=$(sed -n 's/^RuntimeDirectory=//p' "$unit")
        mode=$(sed -n 's/^RuntimeDirectoryMode=//p' "$unit")
        [ -z "$run" ] || install -d -o "$user" -g "$group" -m "${mode:-0755}" "/run/$run"
        # shellcheck disable=SC2086
        setsid setpriv --reuid "$user" --regid "$group" --init-groups env -i PATH=/usr/bin:/bin \
            $line > "/tmp/$3.log" 2>&1 < /dev/null &
        echo $! > "/tmp/$3.pid"
        ;;
    restart)
        pid=$(cat "/run/$2/$2.pid" 2> /dev/null) && kill "$pid"
        while [ -e "/run/$2/$2.pid" ]; do sleep 0.1; done
        setsid "${2}ctl" start < /dev/null > /dev/null
        ;;
    reload) setsid "$2" < /dev/null > /dev/null 2>&1 & ;;
esac
