#!/usr/bin/env bash
# Builds sudo's plugin for desk-host (packaging/host/desk_host.c) at build/desk_host.so, or at the
# path that is given. It needs a C compiler, and the header of Debian's package sudo.
set -euo pipefail
out=$(realpath -m "${1:-build/desk_host.so}")
cd "$(dirname "$0")/.."
mkdir -p "$(dirname "$out")"
${CC:-cc} -std=c11 -O2 -g0 -s -Wall -Wextra -Wshadow -Wconversion -Werror -D_FORTIFY_SOURCE=2 \
    -fstack-protector-strong -fstack-clash-protection -fPIC -shared -fvisibility=hidden \
    -Wl,-z,relro,-z,now,-z,noexecstack -Wl,--no-undefined -o "$out.$$" packaging/host/desk_host.c
mv "$out.$$" "$out"
