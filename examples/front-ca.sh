#!/bin/sh
# A small certificate authority for the front, by openssl: for a tour, for tests, and for a site
# that has none. It keeps all that it makes in the folder DIR; whoever has DIR/ca.key has it all.
#
#   front-ca.sh DIR init                     the authority: ca.pem, ca.key, crl.pem
#   front-ca.sh DIR server NAME [ADDRESS]    server.pem, server.key: for the front of that name;
#                                            where these are of another, server-NAME.pem and .key
#   front-ca.sh DIR KIND NAME                KIND-NAME.pem, KIND-NAME.key: for a client. KIND is
#                                            relay, host, auditor or person. A relay's key alone
#                                            is root on all hosts: it speaks for every person
#   front-ca.sh DIR revoke KIND-NAME         takes every certificate of that client back, also those
#                                            whose file is gone, by a new crl.pem
#   front-ca.sh DIR revoke-older KIND-NAME   takes all of them back but the one in KIND-NAME.pem
#   front-ca.sh DIR renew                    a new crl.pem of the same revocations, before the old
#                                            one ends after 365 days
#   front-ca.sh DIR list                     the certificates that hold: end, serial, subject
#
# A new crl.pem counts from the moment on at which the front has it: copy it there, and restart the
# front. If there is a program DIR/publish, each new crl.pem after the first ends with a run of it.
#
# DAYS in the environment is how long a certificate holds (365), or FROM and UNTIL are its dates,
# yyyymmddhhmmssZ.
set -eu
umask 077
export LC_ALL=C

usage() {
    sed -n '2,23s/^# \{0,1\}//p' "$0" >&2
    exit 2
}

say() {
    echo "front-ca.sh: $1" >&2
}

refuse() {
    say "$1"
    exit 1
}

failed() {
    cat ca.log >&2
    exit 1
}

# (openssl wants a word for `serial`; each is drawn at random, so that an authority that comes from
# a backup gives none twice)
conf() {
    cat > ca.conf <<CONF
[ca]
default_ca = it
[it]
dir = .
database = index.txt
serial = serial
crlnumber = crlnumber
new_certs_dir = issued
certificate = ca.pem
private_key = ca.key
default_md = sha256
default_crl_days = 365
policy = any
unique_subject = no
[any]
organizationalUnitName = optional
commonName = supplied
CONF
}

# The serials that a list of revoked certificates has.
listed() {
    openssl crl -in "$1" -noout -text > "$new/text" 2> ca.log ||
        refuse "$1 cannot be read as a list of revoked certificates: take it from a backup"
    sed -n 's/^ *Serial Number: //p' "$new/text"
}

# A new list, in the old one's place once it has all that the old one has.
crl() {
    openssl ca -config ca.conf -gencrl -out "$new/crl.pem" 2> ca.log || failed
    awk -F '\t' '$1 == "R" { print $4 }' index.txt > "$new/wanted"
    [ ! -e crl.pem ] || listed crl.pem >> "$new/wanted"
    listed "$new/crl.pem" > "$new/has"
    lacks=$(grep -vxF -f "$new/has" "$new/wanted" || :)
    [ -z "$lacks" ] || refuse "index.txt no longer has these as revoked, and crl.pem does: $lacks.
It is older than crl.pem: take the newer one from a backup. crl.pem stays as it was"
    chmod 0644 "$new/crl.pem"
    mv "$new/crl.pem" crl.pem
}

publish() {
    if [ -x publish ]; then
        # (what it starts must not keep the lock)
        ./publish >&2 9>&- || refuse "publish failed: the front does not go by the new crl.pem yet"
    else
        say "crl.pem is new: copy it to each front and restart that, which until then takes"
        say "whoever was revoked"
    fi
}

init() {
    [ ! -e ca.key ] && [ ! -e ca.pem ] || refuse "there is an authority in this folder already"
    mkdir -p issued
    : > index.txt
    echo 1000 > crlnumber
    conf
    openssl req -x509 -newkey ec -pkeyopt ec_paramgen_curve:P-256 -nodes -days 3650 \
        -subj "/CN=desk authority" -addext basicConstraints=critical,CA:TRUE,pathlen:0 \
        -addext keyUsage=critical,keyCertSign,cRLSign -keyout "$new/key" -out "$new/pem" \
        2> ca.log || failed
    chmod 0644 "$new/pem"
    mv "$new/key" ca.key
    mv "$new/pem" ca.pem
    crl
}

# Refuses before anything is written where the disk is full: openssl would put files that are cut
# off into the places of whole ones.
make_room() {
    { [ ! -e index.txt ] || cat index.txt index.txt index.txt; } > "$new/room" &&
        head -c 131072 /dev/zero >> "$new/room" || refuse "the disk has no room left"
    rm "$new/room"
}

# What a run that was ended halfway has left. openssl puts a new file into the old one's place by
# two renames; and what it has signed and not written down holds, and so is written down here.
mend() {
    for file in index.txt index.txt.attr crlnumber serial; do
        if [ ! -e "$file" ] && [ -e "$file.new" ]; then mv "$file.new" "$file"; fi
        rm -f "$file.new"
    done
    [ -e index.txt ] || refuse "index.txt, which says what was issued and revoked, is gone"
    # (a full disk empties it; the next number has to be greater)
    [ -s crlnumber ] || printf '%X\n' "$(date +%s)" > crlnumber
    for serial in $(ls issued | sed -n 's/\.pem$//p' | awk -F '\t' \
        'FILENAME == "index.txt" { known[$4] = 1; next } !($1 in known)' index.txt -); do
        if openssl x509 -in "issued/$serial.pem" -noout 2> ca.log; then
            openssl ca -config ca.conf -valid "issued/$serial.pem" 2> ca.log || failed
        else
            say "issued/$serial.pem is no certificate: it was being written when a run was ended"
        fi
    done
}

# Sets the subject of a kind and a name. What the fronts would refuse, or what would be more than a
# name in a subject, is no name.
name() {
    case $1 in
        relay | host | auditor) form='[a-z][a-z0-9-]*' ;;
        person) form='[a-z_][a-z0-9._-]*' ;;
        server) form='([*][.])?[A-Za-z0-9][A-Za-z0-9.-]*' ;;
        *) usage ;;
    esac
    if ! printf '%s' "$2" | tr '\n' '/' | grep -Eqx -e "$form"; then
        say "'$2' is not the name of a $1: these have the form $form"
        exit 2
    fi
    if [ "$1" = server ]; then subject=/CN=$2; else subject=/OU=$1/CN=$2; fi
}

# The certificates that hold: end, serial and subject of each. (The index has a year in two digits
# up to 2049.)
holding() {
    awk -F '\t' -v now="$(date -u +%Y%m%d%H%M%SZ)" '$1 == "V" {
        end = $2
        if (length(end) == 13) end = "20" end
        if (end >= now) print end, $4, $6
    }' index.txt
}

serial_of() {
    openssl x509 -in "$1" -noout -serial 2> ca.log | sed 's/^serial=//'
}

# A certificate: the name of its files, its subject, and its extensions. The files are put in place
# when both are there: a run that fails leaves the old key with the old certificate.
issue() {
    files=$1
    openssl req -newkey ec -pkeyopt ec_paramgen_curve:P-256 -nodes -subj "$2" \
        -keyout "$new/key" -out "$new/csr" 2> ca.log || failed
    printf 'basicConstraints=critical,CA:FALSE\n%s\n' "$3" > "$new/ext"
    if [ -n "${FROM:-}" ]; then
        set -- -startdate "$FROM" -enddate "$UNTIL"
    else
        set -- -days "${DAYS:-365}"
    fi
    openssl ca -config ca.conf -batch -notext -rand_serial -in "$new/csr" -out "$new/pem" \
        -extfile "$new/ext" "$@" 2> ca.log || failed
    chmod 0644 "$new/pem"
    mv "$new/key" "$files.key"
    mv "$new/pem" "$files.pem"
}

# Says which older certificates of a client hold beside its new one, and how they end.
tell_older() {
    made=$(serial_of "$1.pem")
    older=$(holding | awk -v made="$made" -v subject="$subject" \
        '$2 != made && $3 == subject { print "  serial " $2 ", until " $1 }')
    [ -n "$older" ] || return 0
    say "beside the new certificate of $1 these hold, with the keys that they were made with:
$older
Once the new one is in place, end them: front-ca.sh DIR revoke-older $1
If a key of theirs is lost, end all, now:  front-ca.sh DIR revoke $1, and make a new one"
}

# Revokes the subject's certificates, all or all but that of a serial, in one step: the new index.
revoke() {
    [ -n "$(awk -F '\t' -v subject="$subject" '$6 == subject' index.txt)" ] ||
        refuse "there was never a certificate of $subject"
    awk -v subject="$subject" -v kept="$1" -v now="$(date -u +%y%m%d%H%M%SZ)" '
        BEGIN { FS = OFS = "\t" }
        $1 == "V" && $6 == subject && $4 != kept { $1 = "R"; $3 = now }
        1' index.txt > "$new/index.txt"
    ended=$(diff index.txt "$new/index.txt" | grep -c '^>' || :)
    mv "$new/index.txt" index.txt
    # (also where none was left: a run before this one may have been ended here)
    crl
    say "$subject: $ended revoked now, $(holding | awk -v subject="$subject" \
        '$3 == subject' | wc -l) hold"
    case $subject in
        /CN=*) say "hosts and relays ask no list about a front: who has its key is believed until
the certificate ends, or they have the ca.pem of another authority" ;;
    esac
    publish
}

[ $# -ge 2 ] || usage
folder=$1 what=$2
shift 2
[ "$what" != init ] || mkdir -p "$folder"
cd "$folder"
# (one run at a time: two that write the index would lose a certificate from it)
exec 9> lock
flock 9
[ "$what" = init ] || [ -e ca.key ] || refuse "there is no authority in this folder"
rm -rf new.*
new=$(mktemp -d new.XXXXXXXX)
trap 'rm -rf "$new"' EXIT
make_room
[ "$what" = init ] || mend

case $what in
    init)
        [ $# -eq 0 ] || usage
        init
        ;;
    server)
        [ $# -eq 1 ] || [ $# -eq 2 ] || usage
        name server "$1"
        case ${2:-} in
            *[!0-9A-Fa-f.:]*) refuse "'$2' is no address" ;;
        esac
        files=server
        if [ -e server.pem ] && ! openssl x509 -in server.pem -noout -checkhost "$1" |
            grep -q ' does match '; then
            files=server-$1
            say "server.pem is another front's: made $files.pem and $files.key"
        fi
        issue "$files" "$subject" "extendedKeyUsage=serverAuth
subjectAltName=DNS:$1${2:+,IP:$2}"
        ;;
    relay | host | auditor | person)
        [ $# -eq 1 ] || usage
        name "$what" "$1"
        issue "$what-$1" "$subject" "extendedKeyUsage=clientAuth"
        tell_older "$what-$1"
        ;;
    revoke)
        [ $# -eq 1 ] || usage
        name "${1%%-*}" "${1#*-}"
        revoke ""
        ;;
    revoke-older)
        [ $# -eq 1 ] || usage
        name "${1%%-*}" "${1#*-}"
        kept=$(serial_of "$1.pem")
        [ -n "$kept" ] || refuse "there is no certificate $1.pem that could stay"
        revoke "$kept"
        ;;
    renew)
        [ $# -eq 0 ] || usage
        crl
        publish
        ;;
    list)
        [ $# -eq 0 ] || usage
        holding
        ;;
    *) usage ;;
esac
