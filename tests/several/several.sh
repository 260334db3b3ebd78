#!/usr/bin/env bash
# Several desks behind a broker (docs/SEVERAL.md): the tests of the broker's package, then three
# brokers and three desks while things are killed. All processes are in a process namespace of their
# own, which ends with this one, and the small disk of one desk is in a mount namespace.
# several.sh [--doors] [--short | --rate] [--seed N] [--keep] [--folder DIR] [DESK ..]; DESK are the
# words of the program, in place of build/desk. With --doors each desk has a door before it, and the
# package has no tests of its own. With --rate nothing is tested: it measures how fast it is.
set -euo pipefail
cd "$(dirname "$0")/../.."
export PATH="$PATH:/usr/sbin:/sbin"
bash tests/several/tools.sh
# (Debian's own: another Python on the path does not see Debian's packages)
python=/usr/bin/python3
export PYTHONPATH=.:broker PYTHONDONTWRITEBYTECODE=1 PYTHONUNBUFFERED=1
module=main
case "${1:-}" in
    --doors) module=doors && shift ;;
    --rate) ;;
    *) "$python" -m pytest -q -p no:cacheprovider broker/tests ;;
esac
exec unshare --mount --pid --fork --kill-child --mount-proc --propagation private \
    "$python" -m "tests.several.$module" "$@"
