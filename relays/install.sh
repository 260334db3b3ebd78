#!/usr/bin/env bash
# Installs those of the named packages of Debian that are not there, where this is root.
set -euo pipefail
there=$(mktemp)
trap 'rm -f "$there"' EXIT
# (dpkg-query fails where it knows none of a name)
{ dpkg-query -W -f '${db:Status-Status} ${Package}\n' "$@" 2>/dev/null || true; } |
    awk '$1 == "installed" {print $2}' | sort -u > "$there"
mapfile -t wanted < <(printf '%s\n' "$@" | sort -u | comm -23 - "$there")
if [ "${#wanted[@]}" -gt 0 ] && [ "$(id -u)" = 0 ] && command -v apt-get >/dev/null; then
    echo "(installing from Debian: ${wanted[*]})" >&2
    # (a mirror may fail once, and another apt may be at work. A machine that is tested starts no
    # service of these packages: the tests start their own)
    patient=(-o DPkg::Lock::Timeout=600 -o Acquire::Retries=3)
    for try in 1 2 3; do
        apt-get "${patient[@]}" update -qq &&
            RUNLEVEL=1 DEBIAN_FRONTEND=noninteractive apt-get "${patient[@]}" install -y -qq \
                --no-install-recommends "${wanted[@]}" > /dev/null && break
        [ "$try" -lt 3 ] || exit 1
        sleep 10
    done
fi
