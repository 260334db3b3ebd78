#!/bin/sh
# Fetches this host's sudoers file from a desk: `desk-host fetch`, under its earlier name. As root:
#
#   fetch-sudoers.sh --cert host.pem --key host.key --ca ca.pem \
#       https://desk.example db1 /etc/sudoers.d/desk
#
# The program is the package's, or the one of the repository that this file stands in.
set -eu
here=$(dirname "$0")/../packaging/desk-host
if [ -x "$here" ]; then
    exec "$here" fetch "$@"
fi
exec desk-host fetch "$@"
