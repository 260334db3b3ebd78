#!/usr/bin/env bash
# Tests the tools over build/desk or what DESK names: desk-lint beside the desk on random rosters and messages, desk-import beside sudo itself on random
# sudoers files and on those of Debian's packages, which are fetched the first time; desk-used beside what sudo logs, and desk-evidence;
# desk-change-roster over a desk that is served, and desk-roster beside a real slapd. It installs what it needs of Debian, where this is root. With
# WHOLE=1 nothing is left out.
# Words are passed on to pytest: --rosters 10000 --messages 10000 --sudoers 1000 asks for more.
set -euo pipefail
cd "$(dirname "$0")/.."
export PATH="$PATH:/usr/sbin:/sbin"
export DESK="${DESK:-$PWD/build/desk}" PYTHONPATH=$PWD/tools:$PWD
. scripts/packages.sh
. scripts/suite.sh
bash relays/install.sh "${tools_packages[@]}"
if [ ! -x "$DESK" ]; then
    echo "there is no program $DESK: run make desk"
    exit 1
fi
mapfile -t words < <(suite_words tools)
/usr/bin/python3 -m pytest "${words[@]}" -rs --dist load tools/tests "$@"
