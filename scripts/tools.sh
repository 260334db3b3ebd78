#!/usr/bin/env bash
# Installs what the gate asks beside the toolchain, where it is not there: sudo, with visudo, and a
# clock that stands still, curl, nc and sqlite3 for `make peers`, a C compiler for `make faults`,
# and what the packages, their front and their pages are made and tried with. With `all` also what
# the tests of the relays, of the tools and of the pages install by themselves, so that no part of
# the gate runs apt beside another. Where this is not root, or there is no apt-get, nothing is
# installed.
set -euo pipefail
cd "$(dirname "$0")/.."
export PATH="$PATH:/usr/sbin:/sbin"
wanted=()
command -v sudo >/dev/null && command -v visudo >/dev/null || wanted+=(sudo)
command -v faketime >/dev/null || wanted+=(faketime)
command -v curl >/dev/null || wanted+=(curl)
command -v jq >/dev/null || wanted+=(jq)
command -v nc >/dev/null || wanted+=(netcat-openbsd)
command -v cc >/dev/null || wanted+=(gcc libc6-dev)
command -v sqlite3 >/dev/null || wanted+=(sqlite3)
# examples/second-reading.jq, in `make cases`
command -v jq >/dev/null || wanted+=(jq)
command -v unshare >/dev/null && command -v setpriv >/dev/null || wanted+=(util-linux)
# The packages, the front and the manual pages: `make package-test`, `make deb`, `make pages` and
# `make peers`.
command -v nginx >/dev/null || wanted+=(nginx-light)
command -v haproxy >/dev/null || wanted+=(haproxy)
command -v openssl >/dev/null || wanted+=(openssl)
command -v dpkg-buildpackage >/dev/null && command -v dh >/dev/null || wanted+=(dpkg-dev debhelper)
command -v dh_python3 >/dev/null || wanted+=(dh-python)
for name in pip setuptools wheel; do
    /usr/bin/python3 -c "import $name" 2>/dev/null || wanted+=("python3-$name")
done
command -v lintian >/dev/null || wanted+=(lintian)
command -v mandoc >/dev/null || wanted+=(mandoc)
command -v strace >/dev/null || wanted+=(strace)
command -v zsh >/dev/null || wanted+=(zsh)
/usr/bin/python3 -c 'import jsonschema' 2>/dev/null || wanted+=(python3-jsonschema)
# (the packages of the relay and of the broker depend on these)
for name in flask waitress pika cryptography fido2; do
    /usr/bin/python3 -c "import ${name//-/_}" 2>/dev/null || wanted+=("python3-$name")
done
/usr/bin/python3 -c 'import pytest' 2>/dev/null || wanted+=(python3-pytest)
# What `make quick` asks of the scripts themselves.
/usr/bin/python3 -c 'import pyflakes' 2>/dev/null || wanted+=(python3-pyflakes)
command -v ip >/dev/null || wanted+=(iproute2)
# Whom a backup's secrets are sealed to: `tests/backup`.
command -v age >/dev/null || wanted+=(age)
command -v gpg >/dev/null || wanted+=(gnupg)
# A host's sudo at a terminal, and the roots of other Debians: `make hosts`.
command -v debootstrap >/dev/null || wanted+=(debootstrap)
command -v tmux >/dev/null || wanted+=(tmux)
/usr/bin/python3 -c 'import pexpect' 2>/dev/null || wanted+=(python3-pexpect)
# The broker that the package's consumer is tried with; it is not started.
[ -d /usr/lib/rabbitmq ] || bash tests/several/tools.sh
command -v systemd-analyze >/dev/null || wanted+=(systemd)
command -v dbus-daemon >/dev/null || wanted+=(dbus libpam-systemd)
command -v adduser >/dev/null || wanted+=(adduser)
if [ "${1:-}" = all ]; then
    . scripts/packages.sh
    mapfile -t documents < <(python3 -m tests.documents.check_team --needs)
    wanted+=("${relays_packages[@]}" "${tools_packages[@]}" "${types_packages[@]}")
    wanted+=("${door_packages[@]}")
    wanted+=("${moving_packages[@]}" "${release_packages[@]}" "${picture_packages[@]}")
    wanted+=("${documents[@]}")
fi
if [ "${#wanted[@]}" -gt 0 ]; then
    bash relays/install.sh "${wanted[@]}"
fi
