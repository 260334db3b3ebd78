#!/usr/bin/env bash
# Tries sudo's plugin and desk-host under a systemd with logind, in a root of this machine's below
# an overlay that is thrown away, with namespaces of its own:
#
#     bash tests/hosts/systemd.sh DESK_HOST PLUGIN
#
# Its first process is this machine's systemd; systemd_inside.sh is its only service of ours. As
# root, with Debian's packages systemd, dbus, libpam-systemd and sudo. Status 77: not to be tried.
set -euo pipefail
here=$(cd "$(dirname "$0")" && pwd)
for needed in /lib/systemd/systemd /usr/bin/dbus-daemon /lib/systemd/systemd-logind; do
    [ -x "$needed" ] || { echo "there is no $needed"; exit 77; }
done
grep -qs pam_systemd /etc/pam.d/common-session || { echo "PAM has no pam_systemd"; exit 77; }
room=$(mktemp -d)
trap 'umount -l "$room/groups" 2> /dev/null || true; rm -rf "$room"' EXIT
mkdir "$room/groups" "$room/root" "$room/out"
mount -t cgroup2 none "$room/groups" || { echo "there are no control groups"; exit 77; }
group=$room/groups/steelnewt-systemd-$$
mkdir "$group"
cp "$1" "$room/out/desk-host"
cp "$2" "$room/out/desk_host.so"
cp "$here/systemd_inside.sh" "$room/out/inside.sh"
cp "$here/../../packaging/units/desk-"{check,end@,failed@,fetch@,sessions,starts}.* "$room/out"

boot() {
    local root=$room/root unit
    mount -t tmpfs -o mode=755 tmpfs "$room/root"
    mkdir "$root"/{up,work,root}
    mount -t overlay overlay -o "lowerdir=/,upperdir=$root/up,workdir=$root/work" "$root/root"
    root=$root/root
    mount -t proc proc "$root/proc"
    mount -t tmpfs -o mode=755 tmpfs "$root/sys"
    mkdir -p "$root/sys/fs/cgroup"
    mount -t cgroup2 cgroup2 "$root/sys/fs/cgroup"
    for unit in dev run; do mount -t tmpfs -o mode=755 tmpfs "$root/$unit"; done
    mount -t tmpfs -o mode=1777 tmpfs "$root/tmp"
    for unit in null zero full random urandom tty; do
        touch "$root/dev/$unit"
        mount --bind "/dev/$unit" "$root/dev/$unit"
    done
    mkdir "$root/dev/pts" "$root/dev/shm" "$root/run/out"
    mount -t devpts -o newinstance,ptmxmode=0666,mode=620 devpts "$root/dev/pts"
    ln -s pts/ptmx "$root/dev/ptmx"
    mount --bind "$room/out" "$root/run/out"
    # only what a login needs is started
    rm -rf "$root"/etc/systemd/system/*.wants
    for unit in udevd udev-trigger journald timesyncd networkd resolved modules-load sysctl \
        remount-fs random-seed update-utmp journal-flush tmpfiles-setup-dev; do
        ln -sf /dev/null "$root/etc/systemd/system/systemd-$unit.service"
    done
    for unit in systemd-journald.socket systemd-journald-dev-log.socket dev-hugepages.mount \
        systemd-journald-audit.socket dev-mqueue.mount sys-kernel-debug.mount getty.target \
        sys-kernel-tracing.mount sys-kernel-config.mount sys-fs-fuse-connections.mount \
        proc-sys-fs-binfmt_misc.automount kmod-static-nodes.service swap.target; do
        ln -sf /dev/null "$root/etc/systemd/system/$unit"
    done
    printf '%s\n' '[Unit]' 'Requires=sysinit.target' \
        'Wants=inside.service dbus.service systemd-logind.service' \
        > "$root/etc/systemd/system/inside.target"
    printf '%s\n' '[Unit]' 'After=dbus.service systemd-logind.service' 'DefaultDependencies=no' \
        '[Service]' 'Type=oneshot' 'ExecStart=/bin/bash /run/out/inside.sh' \
        'ExecStopPost=/bin/systemctl --no-block poweroff' \
        > "$root/etc/systemd/system/inside.service"
    ln -sf inside.target "$root/etc/systemd/system/default.target"
    cd "$root"
    mkdir old
    pivot_root . old
    umount -l /old
    cd /
    exec env -i container=lxc PATH="$PATH" /lib/systemd/systemd --system --log-level=warning
}

export room
export -f boot
(
    echo "$BASHPID" > "$group/cgroup.procs"
    exec timeout "${PATIENCE:-600}" unshare --mount --pid --net --uts --ipc --cgroup --fork \
        --kill-child --propagation private bash -euc boot
) > "$room/log" 2>&1 < /dev/null || true
find "$group" -depth -type d -exec rmdir {} + 2> /dev/null || true
if ! grep -q '^a host with systemd: ' "$room/out/said" 2> /dev/null; then
    cat "$room/out/said" 2> /dev/null || true
    tail -n 20 "$room/log"
    echo "systemd did not get that far"
    exit 1
fi
cat "$room/out/said"
grep -q '^a host with systemd: [0-9]* checks, 0 wrong$' "$room/out/said"
