#!/usr/bin/env bash
# Looks through the client, the relays, the broker's programs, the tools and the hosts' program,
# with their tests: mypy in its strictest form (pyproject.toml), and flake8, for Debian 12 has no
# ruff. It installs what it needs of Debian, where this is root. The last line is 'N programs and
# modules: types and style fit'.
set -euo pipefail
cd "$(dirname "$0")/.."

. scripts/packages.sh
bash relays/install.sh "${types_packages[@]}"

# The files of a folder that are Python, with those programs that have no .py in their names.
python_of() {
    find "$@" -name '*.py'
    find "$@" -maxdepth 1 -type f ! -name '*.*' -exec grep -lE '^#!.*python' {} +
}

# Runs mypy over these files; the first word names what it keeps for the next time.
typed() {
    local kept=$1
    shift
    /usr/bin/mypy --python-executable /usr/bin/python3 --cache-dir "build/types/$kept" \
        --no-error-summary "$@"
}

mapfile -t relays < <(python_of relays door steelnewt_{client,relay,door,backup})
mapfile -t broker < <(python_of broker)
mapfile -t tools < <(python_of tools)
mapfile -t host < <(python_of steelnewt_host)
mkdir -p build/types
# (apart, for the tests of the broker and of the tools both have a conftest.py; two at once)
typed relays "${relays[@]}" > build/types/relays.said 2>&1 &
relays_ended=$!
status=0
MYPYPATH=broker:broker/tests typed broker "${broker[@]}" || status=1
MYPYPATH=tools:tools/tests typed tools "${tools[@]}" || status=1
# (hosts may have an older Python)
typed host --python-version 3.9 "${host[@]}" || status=1
# (and so may people)
typed mydesk --python-version 3.8 packaging/mydesk || status=1
wait "$relays_ended" || status=1
cat build/types/relays.said
# (a line may have more than flake8's 79 columns, and a slice a blank before its colon)
/usr/bin/python3 -m flake8 --extend-ignore=E203,E501 "${relays[@]}" "${broker[@]}" \
    "${tools[@]}" "${host[@]}" packaging/mydesk || status=1
count=$((${#relays[@]} + ${#broker[@]} + ${#tools[@]} + ${#host[@]} + 1))
if [ "$status" != 0 ] || [ "$count" -lt 100 ]; then
    echo "$count programs and modules: FAILED"
    exit 1
fi
echo "$count programs and modules: types and style fit"
