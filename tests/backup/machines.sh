#!/usr/bin/env bash
# A machine that is lost, on machines that boot: a desk, a relay and a front in a root of this
# machine's, below an overlay that is thrown away, under its own systemd and in namespaces. It lives
# for three faked days, is lost, and is made again in an empty root by the commands of RESTORING,
# ten times over (life.py):
#
#     bash tests/backup/machines.sh [LIVES]
#
# (TREE=FOLDER keeps there what the packages bring, and takes it from there the next time.)
# Over build/desk. As root, with Debian's packages systemd, dbus, nginx-light, sudo, age, openssl.
# Status 77: it cannot be tried here, or with WHOLE=1 1.
set -euo pipefail
cd "$(dirname "$0")/../.."
lives=${1:-10}
lacking() {
    echo "a machine that is lost: NOT TRIED: $1"
    [ -z "${WHOLE:-}" ] || exit 1
    exit 77
}
for needed in /lib/systemd/systemd /usr/bin/dbus-daemon /usr/sbin/nginx /usr/bin/age; do
    [ -x "$needed" ] || lacking "there is no $needed"
done
room=$(mktemp -d)
trap 'umount -l "$room/groups" "$room/brought" 2> /dev/null || true; rm -rf "$room"' EXIT
mkdir "$room/groups" "$room/root" "$room/out" "$room/brought"
mount -t cgroup2 none "$room/groups" || lacking "there are no control groups"
group=$room/groups/steelnewt-lost-$$
mkdir "$group"

# What the packages bring, once; and what the machines run of this repository.
tree=${TREE:-$room/tree}
[ -d "$tree/usr" ] || PREFIX=/usr DESTDIR=$tree bash scripts/install.sh > "$room/installed"
# (a layer of an overlay lies on another file system than the others; /lib is a link to usr/lib)
mount -t tmpfs -o mode=755 tmpfs "$room/brought"
cp -a "$tree/." "$room/brought"
cp -a "$room/brought/lib/." "$room/brought/usr/lib"
rm -r "$room/brought/lib"
cp -r --parents tests/__init__.py tests/backup tests/common scripts examples packaging/debian \
    docs/RESTORING.md docs/OPERATING.md "$room/out"

boot() {
    local root=$room/root unit
    mount -t tmpfs -o mode=755 tmpfs "$room/root"
    mkdir "$root"/{up,work,root}
    mount -t overlay overlay \
        -o "lowerdir=$room/brought:/,upperdir=$root/up,workdir=$root/work" "$root/root"
    root=$root/root
    mount -t proc proc "$root/proc"
    mount -t tmpfs -o mode=755 tmpfs "$root/sys"
    mkdir -p "$root/sys/fs/cgroup"
    mount -t cgroup2 cgroup2 "$root/sys/fs/cgroup"
    for unit in dev run; do mount -t tmpfs -o mode=755 tmpfs "$root/$unit"; done
    mount -t tmpfs -o mode=1777 tmpfs "$root/tmp"
    for unit in null zero full random urandom tty; do
        touch "$root/dev/$unit"
        mount --bind "/dev/$unit" "$root/dev/$unit"
    done
    mkdir "$root/dev/pts" "$root/dev/shm" "$root/run/out"
    mount -t devpts -o newinstance,ptmxmode=0666,mode=620 devpts "$root/dev/pts"
    ln -s pts/ptmx "$root/dev/ptmx"
    mount --bind "$room/out" "$root/run/out"
    # only what a desk needs is started
    rm -rf "$root"/etc/systemd/system/*.wants
    for unit in udevd udev-trigger journald timesyncd networkd resolved modules-load sysctl \
        remount-fs random-seed update-utmp journal-flush tmpfiles-setup-dev logind; do
        ln -sf /dev/null "$root/etc/systemd/system/systemd-$unit.service"
    done
    for unit in systemd-journald.socket systemd-journald-dev-log.socket dev-hugepages.mount \
        systemd-journald-audit.socket dev-mqueue.mount sys-kernel-debug.mount getty.target \
        sys-kernel-tracing.mount sys-kernel-config.mount sys-fs-fuse-connections.mount \
        proc-sys-fs-binfmt_misc.automount kmod-static-nodes.service swap.target; do
        ln -sf /dev/null "$root/etc/systemd/system/$unit"
    done
    printf '%s\n' '[Unit]' 'Requires=sysinit.target' 'Wants=life.service dbus.service' \
        > "$root/etc/systemd/system/inside.target"
    printf '%s\n' '[Unit]' 'After=dbus.service sysinit.target' 'DefaultDependencies=no' \
        '[Service]' 'Type=oneshot' 'WorkingDirectory=/run/out' 'TimeoutStartSec=infinity' \
        'ExecStart=/usr/bin/python3 -m tests.backup.life' 'StandardOutput=append:/run/out/printed' \
        'StandardError=append:/run/out/printed' \
        'ExecStopPost=/bin/systemctl --force --force poweroff' \
        > "$root/etc/systemd/system/life.service"
    ln -sf inside.target "$root/etc/systemd/system/default.target"
    # a lost machine's root is empty: what this machine has of a desk is not there
    rm -rf "$root"/etc/desk "$root"/var/lib/desk* "$root"/etc/sudoers.d/* "$root"/etc/nginx/conf.d/*
    rm -f "$root"/etc/nginx/sites-enabled/* "$root"/etc/ssh/ssh_host_*
    cp -r "$room/brought/etc/desk" "$root/etc/desk"
    uuid=$(cat /proc/sys/kernel/random/uuid)
    echo "${uuid//-/}" > "$root/etc/machine-id"
    hostname desk.example
    ip link set lo up
    printf '%s\n' '127.0.0.1 localhost desk.example' > "$root/etc/hosts"
    echo desk.example > "$root/etc/hostname"
    cd "$root"
    mkdir old
    pivot_root . old
    umount -l /old
    cd /
    exec env -i container=lxc PATH="$PATH" /lib/systemd/systemd --system --log-level=warning
}

export room
export -f boot
for life in $(seq 0 "$lives"); do
    begun=$SECONDS
    echo "$life $lives" > "$room/out/life"
    : > "$room/out/printed"
    (
        echo "$BASHPID" > "$group/cgroup.procs"
        # (unshare takes no SIGTERM)
        exec timeout -s KILL "${PATIENCE:-1800}" unshare --mount --pid --net --uts --ipc --cgroup \
            --fork --kill-child --propagation private bash -euc boot
    ) > "$room/log" 2>&1 < /dev/null || true
    cat "$room/out/printed"
    if ! grep -q "^life $life: [0-9]* checks, 0 wrong$" "$room/out/printed"; then
        tail -n 20 "$room/log"
        echo "a machine that is lost: FAILED in life $life"
        exit 1
    fi
    echo "(life $life took $((SECONDS - begun)) s)"
done
find "$group" -depth -type d -exec rmdir {} + 2> /dev/null || true
cat "$room/out/summary"
