#!/usr/bin/env bash
# Makes Debian's packages of what `make install` installs, in build/deb: steelnewt (the desk),
# steelnewt-host (what fetches a host's file), steelnewt-host-plugin (what sudo tells it),
# steelnewt-tools, steelnewt-relay, steelnewt-door, steelnewt-backup, mydesk (a person's own),
# steelnewt-broker, and python3-steelnewt-client, which five of these use. Nothing is proved, and
# nothing built but sudo's plugin: the program is build/desk, byte for byte. Where that is not
# proved (`make try`), the packages' version and description say so.
set -euo pipefail
cd "$(dirname "$0")/.."
for tool in dpkg-buildpackage dh dh_python3; do
    command -v "$tool" > /dev/null || {
        echo "make deb needs $tool: install Debian's packages dpkg-dev, debhelper and dh-python" >&2
        exit 1
    }
done
rm -rf build/deb
mkdir -p build/deb/steelnewt
cp -r packaging/debian build/deb/steelnewt/debian
case $(build/desk --version) in
    *'NOT PROVED'*)
        sed -i '1s/)/~unproved)/' build/deb/steelnewt/debian/changelog
        sed -i 's/ desk, whose promises are proved$/ desk, NOT PROVED: for trials/' \
            build/deb/steelnewt/debian/control ;;
esac
PREFIX=/usr DESTDIR=$PWD/build/deb/steelnewt/tree bash scripts/install.sh > /dev/null
(
    cd build/deb/steelnewt
    # What stood in the environment of an outer make means nothing here.
    env -u MAKEFLAGS -u MAKELEVEL dpkg-buildpackage --build=binary \
        --unsigned-source --unsigned-changes --no-check-builddeps
) > build/deb/log 2>&1 || {
    cat build/deb/log >&2
    exit 1
}
ls build/deb/*.deb
