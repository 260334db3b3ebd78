#!/usr/bin/env bash
# Installs what `make several` asks of Debian, where it is not there: RabbitMQ, and pika and pytest
# for Debian's own Python. The broker of the system is not started: the test runs brokers of its
# own. Where this is not root, or there is no apt-get, nothing is installed.
set -euo pipefail
cd "$(dirname "$0")/../.."
export PATH="$PATH:/usr/sbin:/sbin"
wanted=()
[ -d /usr/lib/rabbitmq ] || wanted+=(rabbitmq-server)
for package in pika pytest; do
    /usr/bin/python3 -c "import $package" 2>/dev/null || wanted+=("python3-$package")
done
command -v systemd-analyze >/dev/null || wanted+=(systemd)
command -v unshare >/dev/null && command -v mount >/dev/null || wanted+=(util-linux mount)
if [ "${#wanted[@]}" -gt 0 ] && [ "$(id -u)" = 0 ] && command -v apt-get >/dev/null; then
    # Debian's way to say that no service is to start
    policy=/usr/sbin/policy-rc.d
    if [ ! -e "$policy" ]; then
        printf '#!/bin/sh\nexit 101\n' > "$policy"
        chmod 0755 "$policy"
        trap 'rm -f "$policy"' EXIT
    fi
    bash relays/install.sh python3 "${wanted[@]}"
    # nor at the next start of the machine
    if command -v systemctl >/dev/null; then
        systemctl disable --quiet rabbitmq-server 2>/dev/null || true
    fi
fi
