# shellcheck shell=bash
# What systemd.sh runs in its root, as root, with a systemd and a logind.
exec > /run/out/said 2>&1
checks=0 wrong=0

# Whether something becomes so within some seconds.
within() {
    local until=$((SECONDS + $1))
    until eval "$2"; do
        [ "$SECONDS" -lt "$until" ] || return 1
        sleep 0.1
    done
}

# Whether a process comes into a control group of that form.
is_in() {
    local found
    found=$(group "$1")
    # shellcheck disable=SC2053
    [[ $found == $2 ]]
}

# Whether a process has exactly these words.
runs() { pgrep -x -f "(/home/ann/)?sleep $1" > /dev/null; }

check() {
    checks=$((checks + 1))
    if ! eval "$2"; then
        wrong=$((wrong + 1))
        echo "with systemd, $1: otherwise. $(groups)"
    fi
}

# The control group of the process whose words begin so.
group() {
    local pid
    pid=$(pgrep -o -x -f "(/home/ann/)?sleep $1")
    [ -z "$pid" ] || sed -n 's/^0:://p' "/proc/$pid/cgroup"
}

groups() {
    local mark
    for mark in 78{01..10}; do
        echo "$mark: $(group $mark)"
    done | paste -sd ' '
}

rights() {
    printf '%s\n' "$@" > /etc/sudoers.d/new.desk
    chmod 0440 /etc/sudoers.d/new.desk
    mv /etc/sudoers.d/new.desk /etc/sudoers.d/desk
}

useradd --create-home --shell /bin/bash ann
useradd app
rm -f /etc/sudoers.d/*
mkdir -p /etc/desk /usr/libexec/steelnewt
echo GRACE=1 > /etc/desk/fetch.conf
install -m 0755 /run/out/desk-host /usr/sbin/desk-host
install -m 0644 /run/out/desk_host.so /usr/libexec/steelnewt/desk_host.so
for unit in /run/out/desk-*.{service,timer,path}; do
    sed 's,@SBINDIR@,/usr/sbin,g' "$unit" > "/etc/systemd/system/${unit##*/}"
done
systemctl daemon-reload
rights 'ann ALL = (root) NOPASSWD: ALL' 'ann ALL = (app) NOPASSWD: ALL'
check "desk-host plugin on" 'desk-host plugin on'

ann() { setpriv --reuid ann --regid ann --init-groups "$@" < /dev/null; }

(su -l ann -c 'sudo sh -c "sleep 7801; :"' < /dev/null &)
(su -l ann -c 'sudo -i sleep 7802' < /dev/null &)
su -l ann -c 'sudo -u app sh -c "env -i setsid -f sleep 7803; :"' < /dev/null
(ann sudo sleep 7804 &)
(ann sudo -i sleep 7805 &)
systemctl start "user@$(id -u ann).service"
ann env "XDG_RUNTIME_DIR=/run/user/$(id -u ann)" systemd-run --user -q sudo sleep 7806
ann cp /usr/bin/sleep /home/ann/sleep
(ann sudo /home/ann/sleep 7807 &)
uid=$(id -u ann)
slice=/user.slice/user-$uid.slice
check "a command stays in its session" "within 60 'is_in 7801 $slice/session-*.scope/desk-*'"
check "so does a login shell" "within 60 'is_in 7802 $slice/session-*.scope/desk-*'"
check "what it left too" "within 60 'is_in 7803 $slice/session-*.scope/desk-*'"
check "without a session it is the service's" "within 60 'is_in 7804 */inside.service/desk-*'"
check "but for a session of root's" "within 60 'is_in 7805 /user.slice/user-0.slice/session-*'"
check "and not in the user's own groups" "within 60 'is_in 7806 $slice/desk-*'"
taken=$(pgrep -o -x -f 'sleep 7806')
user=/sys/fs/cgroup$slice/user@$uid.service
check "out of which its user could take it" 'ann mkdir $user/own && [ -n "$taken" ]'
check "and cannot" '! ann sh -c "echo $taken > $user/own/cgroup.procs" 2> /dev/null'
check "it is where it was" '[[ $(group 7806) == $slice/desk-* ]]'
check "a look" 'systemctl start desk-sessions.service'
check "it ends nothing" '[ "$(pgrep -c -x sleep)" = 7 ]'
check "and brings back what was taken out" '[[ $(group 7805) == */inside.service/desk-* ]]'
rights 'ann ALL = (root) NOPASSWD: /usr/bin/true'
check "a look after the right" 'systemctl start desk-sessions.service'
check "nothing is left" '! pgrep -x sleep'
check "no record is" '[ -z "$(ls /run/desk-host/starts)" ]'
check "no group is" '[ -z "$(find /sys/fs/cgroup -name "desk-[0-9]*")" ]'
check "no unit failed" '[ -z "$(systemctl --failed --plain --no-legend)" ]'
check "the timer starts" 'systemctl start desk-sessions.timer'
check "and waits" 'systemctl list-timers --no-legend | grep -q desk-sessions.timer'

# A grant ends while no unit of desk-host runs: the timer alone ends what it allowed.
units='desk-sessions.timer desk-starts.path'
check "what starts is seen" 'systemctl start desk-starts.path'
end=$(($(date +%s) + 40))
window=NOTAFTER=$(date -u -d "@$end" +%Y%m%d%H%M%SZ)
rights "ann ALL = (root) $window NOPASSWD: ALL" 'ann ALL = (app) NOPASSWD: ALL'
(su -l ann -c 'sudo sh -c "env -i setsid -f sleep 7808; sleep 7809; :"' < /dev/null &)
(su -l ann -c 'sudo -u app sleep 7810' < /dev/null &)
check "a command under it runs" 'within 30 "runs 7808 && runs 7809 && runs 7810"'
timer=desk-end@$((end + 1)).timer
check "systemd has a timer at its end" 'within 30 "systemctl is-active -q $timer"'
check "desk-host is stopped" 'systemctl stop $units'
check "before its end all goes on" '[ "$(date +%s)" -ge "$end" ] || runs 7808 && runs 7809'
check "it ends by itself" 'within 60 "! runs 7808 && ! runs 7809"'
late=$(($(date +%s) - end))
echo "with systemd, a timer alone ended what a grant allowed $late s after its last second"
check "soon" '[ "$late" -ge 1 ] && [ "$late" -le 20 ]'
check "what another right allows goes on" 'runs 7810'
check "no timer is left" 'within 30 "! systemctl is-active -q $timer"'
pkill -KILL -x -f 'sleep 7810'

# Each start is kept, with its words, its user and its target.
check "what was started is kept" 'desk-host starts | grep -c "sleep 7809" | grep -qx 1'
check "with its user and target" 'desk-host starts | grep 7810 |
    grep -q "\"user\": \"ann\", \"runas\": \"app\", \"command\": \"/usr/bin/sleep\""'

# The administrator's program is told of a unit that fails.
printf '#!/bin/sh\necho "$1" >> /run/failed\n' > /etc/desk/failed
chmod 0755 /etc/desk/failed
systemctl start desk-fetch@db1.service 2> /dev/null
check "a unit that fails is told of" 'within 20 "grep -qsx desk-fetch@db1.service /run/failed"'
desk-host check --deep > /run/checked 2>&1
check "the self-test finds nothing" '[ -e /var/lib/desk-host/self-test ] &&
    [ ! -s /var/lib/desk-host/self-test ] || { cat /run/checked; false; }'
echo "a host with systemd: $checks checks, $wrong wrong"
