#!/usr/bin/env bash
# Boots a machine: a systemd over a root below an overlay, in namespaces of its own. machine.py
# starts it as the first process of these:
#
#     bash tests/machines/boot.sh ROOT FOLDER NAME
#
# ROOT stays as it is; what the machine writes is in FOLDER, and is there at its next boot.
set -euo pipefail
lower=$1 folder=$2 name=$3 root=$2/root
mkdir -p "$folder"/{up,work,root}
mount -t overlay overlay -o "lowerdir=$lower,upperdir=$folder/up,workdir=$folder/work" "$root"
mount -t proc proc "$root/proc"
mount -t tmpfs -o mode=755 tmpfs "$root/sys"
mkdir -p "$root/sys/fs/cgroup"
mount -t cgroup2 cgroup2 "$root/sys/fs/cgroup"
for place in dev run; do mount -t tmpfs -o mode=755 tmpfs "$root/$place"; done
mount -t tmpfs -o mode=1777 tmpfs "$root/tmp"
for node in null zero full random urandom tty; do
    touch "$root/dev/$node"
    mount --bind "/dev/$node" "$root/dev/$node"
done
mkdir "$root/dev/pts" "$root/dev/shm"
mount -t tmpfs -o mode=1777 tmpfs "$root/dev/shm"
mount -t devpts -o newinstance,ptmxmode=0666,mode=620 devpts "$root/dev/pts"
ln -s pts/ptmx "$root/dev/ptmx"
hostname "$name"

# The first time: a machine on which nothing is enabled, and nothing of the desk is there.
if [ ! -e "$folder/made" ]; then
    echo "$name" > "$root/etc/hostname"
    rm -rf "$root"/etc/systemd/system/*.wants "$root"/etc/rc?.d/[SK]* "$root/usr/sbin/policy-rc.d" \
        "$root"/etc/{desk,cron.d/feed-desk,machine-id} "$root"/etc/sudoers.d/desk* \
        "$root"/var/lib/{desk,desk-relay,desk-door,desk-host} "$root"/var/log/{nginx,journal}/* \
        "$root"/etc/nginx/conf.d/*
    # (the index of manual pages takes minutes after each installation, and nobody asks it)
    rm -f "$root/var/lib/man-db/auto-update"
    : > "$root/etc/machine-id"
    for unit in udevd udev-trigger timesyncd networkd networkd-wait-online resolved modules-load \
        sysctl remount-fs random-seed update-utmp tmpfiles-setup-dev firstboot; do
        ln -sf /dev/null "$root/etc/systemd/system/systemd-$unit.service"
    done
    for unit in dev-hugepages.mount dev-mqueue.mount sys-kernel-debug.mount getty.target \
        sys-kernel-tracing.mount sys-kernel-config.mount sys-fs-fuse-connections.mount \
        proc-sys-fs-binfmt_misc.automount kmod-static-nodes.service swap.target \
        systemd-journald-audit.socket; do
        ln -sf /dev/null "$root/etc/systemd/system/$unit"
    done
    ln -sf /lib/systemd/system/multi-user.target "$root/etc/systemd/system/default.target"
    touch "$folder/made"
fi
cd "$root"
mkdir -p old
pivot_root . old
umount -l /old
cd /
exec env -i container=lxc PATH="$PATH" /lib/systemd/systemd --system --log-level=warning
