#!/usr/bin/env bash
# Types the lines of docs/RELAYS.md, and then does what a person does. See follow.sh.
set -euo pipefail
cd /root/clone
export PATH=/usr/local/sbin:/usr/local/bin:/usr/sbin:/usr/bin:/sbin:/bin
/usr/bin/python3 - <<'P'
import fcntl, socket, struct
with socket.socket() as peer:  # (loopback goes up)
    fcntl.ioctl(peer, 0x8914, struct.pack("16sh14x", b"lo", 1 | 64))
P
# The first block after a heading, or after a line that begins so.
block() {
    awk -v from="$1" 'index($0, from) == 1 {on = 1} on && /^```$/ {exit} on && show {print}
        on && /^```sh$/ {show = 1}' docs/RELAYS.md
}
until_answers() {
    for _ in $(seq 200); do
        curl -s -o /dev/null "$@" && return
        sleep 0.1
    done
    echo "nothing answers at $*"
    exit 1
}
# The desk, its group and the folder of its socket, as the package and its unit make them.
groupadd --system desk-front
install -d -g desk-front -m 0750 /run/desk
setpriv --regid desk-front --clear-groups ./desk serve /etc/desk/roster.toml examples/site.sudo \
    /root/desk.db unix:/run/desk/desk.sock > /dev/null &
for person in ann bob carol mallory; do
    ssh-keygen -q -t ed25519 -N '' -f "$person"
done
block "## By ssh" > ssh.block
block "## The page" > page.block
echo "lines: $(wc -l < ssh.block) $(wc -l < page.block)"
bash -eu ssh.block
until_answers --unix-socket /run/desk/desk.sock http://desk/v1/parked
/usr/sbin/sshd
# (255 is ssh's own status: no connection, on a machine that has much else to do)
ask() {
    local person=$1 status
    shift
    for _ in 1 2 3 4 5; do
        status=0
        ssh -F /dev/null -i "$person" -o LogLevel=ERROR -o StrictHostKeyChecking=no \
            -o UserKnownHostsFile=/dev/null desk-relay@127.0.0.1 "$@" <<< y || status=$?
        [ "$status" = 255 ] || return "$status"
        sleep 1
    done
    return 255
}
ask ann ask db-care --on db1 --as root --for 2h /usr/bin/id
ask bob approve ann 1
# carol hands in a file with a second line, and it is added as the document says.
cat mallory.pub >> carol.pub
grep -E '^(echo|desk-relay-person) .*ann\.pub' ssh.block | sed 's/ && .*//; s/ann/carol/g' > carol.block
bash -eu carol.block || echo "carol.pub is refused"
ask mallory id || echo "mallory is refused"
bash -eu page.block
page() {
    (
        cd /etc/desk/front
        curl -s --cacert ca.pem --cert "person-$1.pem" --key "person-$1.key" \
            --resolve desk.example:8443:127.0.0.1 https://desk.example:8443/
    )
}
until_answers --unix-socket /run/desk-relay/page.sock http://page/
until_answers -k https://127.0.0.1:8443/
page bob | grep -o "You are <strong>[a-z]*</strong>"
page ann | grep -o "It is in force from" | head -n 1
curl -s --unix-socket /run/desk-relay/page.sock http://page/ -H 'X-Desk-Person: bob' |
    grep -o "through its front alone"
(. relays/tests/signed_on.sh)
# Another account of the machine: past the front, and in the page's place while that is stopped.
place=$(sed -n 's,^ *proxy_pass http://\(.*\);$,\1,p' /etc/nginx/conf.d/desk-page.conf)
as_nobody() {
    setpriv --reuid nobody --regid nogroup --clear-groups \
        /usr/bin/python3 - "$place" "$1" < relays/tests/thief.py
}
echo "while the page runs"
as_nobody 1
kill "$(cat /tmp/desk-relay-page.pid)"
for left in "its folder left" "its folder gone"; do
    sleep 1
    echo "while the page is stopped, $left"
    as_nobody 5 &
    sleep 2
    page bob > /dev/null || true
    wait $!
    rm -rf /run/desk-relay
done
cat /tmp/desk-relay-post.log
ls -l /etc/desk /etc/desk/front /var/lib/desk-relay
