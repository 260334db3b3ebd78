#!/usr/bin/env bash
# `make demo`: a person asks by ssh, another approves, and the host's file has the grant; with V=1
# also all that the desk answers about the files of examples/. Over build/desk, or else the program
# of `make try`, which is built first, WITHOUT A PROOF, where it is not there.
set -euo pipefail
cd "$(dirname "$0")/.."
if [ ! -x build/desk ]; then
    [ -x build/desk-unproved ] || bash scripts/try.sh desk_cli
    export DESK=$PWD/build/desk-unproved
fi
bash relays/install.sh openssh-server openssh-client tzdata
relays/desk-demo --desk "${DESK:-build/desk}"
if [ -n "${V:-}" ]; then
    bash scripts/demo.sh
else
    echo "\`make demo V=1\` also shows what the desk answers about the files of examples/."
fi
if [ -n "${DESK:-}" ]; then
    echo "This was $DESK. Where it was built by \`make try\`, NOTHING OF IT WAS PROVED:"
    echo "\`make desk\` proves the program and all below it, and \`make demo\` shows that one then."
fi
