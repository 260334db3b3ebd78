#!/usr/bin/env bash
# Follows docs/RELAYS.md on a machine of its own: this one's files with a layer over them that is
# thrown away, no network but loopback, and its own processes. The words: a folder, and the desk.
set -euo pipefail
folder=$1 desk=$2
here=$(cd "$(dirname "$0")/../.." && pwd)
mount -t tmpfs tmpfs "$folder"
mkdir "$folder/upper" "$folder/work" "$folder/root"
mount -t overlay overlay \
    -o "lowerdir=/,upperdir=$folder/upper,workdir=$folder/work" "$folder/root"
root=$folder/root
mount --rbind /dev "$root/dev"
mount -t proc proc "$root/proc"
clone=$root/root/clone
mkdir -p "$clone" "$root/etc/desk" "$root/run/sshd" "$root/tmp"
chmod 1777 "$root/tmp"
cp -r "$here/relays" "$here/examples" "$here/docs" "$clone/"
# What the package would put in place, and its script.
(cd "$here" && PREFIX=/usr DESTDIR=$folder/tree bash scripts/install.sh > /dev/null)
mkdir "$root/root/package"
client=usr/lib/python3/dist-packages/steelnewt_client
(cd "$folder/tree" && xargs tar -c $client < "$here/packaging/debian/steelnewt-relay.install") |
    tar -x -C "$root/root/package" --no-same-owner
cp "$here/packaging/debian/steelnewt-relay.postinst" "$root/root/postinst"
cp "$desk" "$clone/desk"
cp "$here/examples/roster.toml" "$root/etc/desk/roster.toml"
# (Debian's packages are there already, and no systemd: these lines stand in for both)
cat > "$root/usr/local/sbin/apt" <<'E'
#!/bin/sh
case $* in *steelnewt-relay_*)
    tar -C /root/package -c . | tar -C / -x --keep-directory-symlink
    sh /root/postinst configure ''
    ;;
esac
E
cp "$here/relays/tests/systemctl.sh" "$root/usr/local/sbin/systemctl"
chmod 755 "$root/usr/local/sbin/"{apt,systemctl}
exec chroot "$root" /bin/bash /root/clone/relays/tests/followed.sh
