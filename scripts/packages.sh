# What tests need of Debian, by what they test: scripts/tools.sh installs all of it before a part of
# the gate begins, so that no part runs apt beside another; each test installs its own.
# shellcheck disable=SC2034
relays_packages=(
    openssh-server openssh-client openssl nginx-light tzdata sudo faketime util-linux
    chromium chromium-driver fonts-dejavu-core curl msmtp msmtp-mta python3-aiosmtpd
    apache2 libapache2-mod-auth-gssapi krb5-kdc krb5-admin-server krb5-user
    libapache2-mod-auth-openidc glewlwyd dbconfig-sqlite3 python3-authlib
    python3-flask python3-requests python3-waitress
    python3-pip python3-setuptools python3-wheel
    python3-pytest python3-pytest-xdist python3-selenium jq nodejs perl
)
door_packages=(
    openssh-server openssh-client openssh-tests openssl python3-cryptography python3-pytest
    python3-pytest-xdist strace python3-fido2 python3-flask python3-waitress python3-selenium
    chromium chromium-driver fonts-dejavu-core nginx-light curl
)
tools_packages=(
    python3-jsonschema python3-pytest python3-pytest-xdist sudo rsyslog faketime util-linux
    iproute2 jq openssh-client tzdata procps sqlite3
    slapd ldap-utils python3-icalendar python3-recurring-ical-events
)
# the move of a site's files: hosts are reached by ssh, and a list of them is made of an inventory
moving_packages=(sudo openssh-server openssh-client ansible-core util-linux iproute2)
# apt-ftparchive and a key for a release, and the picture of the concepts
release_packages=(apt-utils gnupg)
picture_packages=(graphviz)
# (mypy reads the types of what is imported, so all of that has to be there)
types_packages=(
    mypy python3-typeshed python3-flake8 python3-cryptography python3-fido2
    python3-aiosmtpd python3-flask python3-jsonschema python3-pika python3-pytest
    python3-requests python3-selenium python3-waitress
)
