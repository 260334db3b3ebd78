# Sourced: the words that pytest gets in each suite. Where the gate runs a part again (AGAIN=1,
# scripts/unsteady.py), they ask for the tests that failed, one after the other.
suite_words() {
    printf '%s\n' -q -o "cache_dir=$PWD/build/pytest/$1"
    if [ -n "${AGAIN:-}" ]; then
        printf '%s\n' -n 0 --last-failed --last-failed-no-failures none
    else
        printf '%s\n' -n "${2:-${CORES:-$(nproc)}}"
    fi
}
