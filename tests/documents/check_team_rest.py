"""What a team does after its first half hour, in check_team.py's root: people are told by mail,
sign on to the page behind Apache, and come from a directory; an auditor asks the desk.

Each is set up by the lines of docs/RELAYS.md, PEOPLE.md and AUDITING.md, with a real SMTP server, a
KDC, a slapd, and a browser.
"""

from __future__ import annotations

import os
import re
import shutil
import time

from tests.common import desk
from tests.documents.check_runbooks import BOOK, Room

NEEDED = "apache2 libapache2-mod-auth-gssapi krb5-kdc krb5-admin-server krb5-user jq"
NEEDED += " python3-aiosmtpd slapd ldap-utils"
NEEDED += " chromium chromium-driver fonts-dejavu-core libnss3-tools python3-selenium"
# what systemd would do of a unit of the relay's, and of Apache
UNITS = """    'enable --now desk-relay-page' | 'enable --now desk-relay-notify') unit "$@" ;;
    'restart apache2')
        unit "$@" ;;
"""
PATIENCE = 300  # seconds: the machine may be busy
REALM = """[libdefaults]
default_realm = EXAMPLE.COM
dns_canonicalize_hostname = false
rdns = false
[realms]
EXAMPLE.COM = {
    kdc = 127.0.0.1
}
[domain_realm]
desk.example = EXAMPLE.COM
"""
KDC = """set -e
printf '[realms]\\nEXAMPLE.COM = {\\n}\\n' > /etc/krb5kdc/kdc.conf
kdb5_util create -s -r EXAMPLE.COM -P only-for-this-test
krb5kdc
for name in ann ben HTTP/desk.example; do
    kadmin.local -q "addprinc -pw only-for-this-test $name"
done
kadmin.local -q 'ktadd -k /etc/desk/http.keytab HTTP/desk.example'
"""
# each person's browser sends tickets to the page, and trusts the site's authority
POLICY = '{"AuthServerAllowlist": "desk.example"}'
BROWSER = """set -e
for name in ann ben; do
    export HOME=/home/$name
    tool="setpriv --reuid $name --regid $name --init-groups certutil -d sql:$HOME/.pki/nssdb"
    install -d -o $name -g $name $HOME/.pki $HOME/.pki/nssdb
    $tool -N --empty-password
    $tool -A -t C,, -n desk < /etc/desk/front/ca.pem
    setpriv --reuid $name --regid $name --init-groups kinit $name <<< only-for-this-test
done
"""
# what a person does in a browser; what is read there is printed
AT_THE_PAGE = """import os
import sys

from selenium.webdriver.common.by import By
from selenium.webdriver.support.select import Select

from chromium import browser, press, see

page = browser(os.path.expanduser("~/browser"))
try:
    # (a browser that has just started may have asked before it knows where to send tickets to)
    for _ in range(5):
        page.get("https://desk.example:8443/")
        if "This page asks for a Kerberos ticket" not in page.page_source:
            break
    see(page, f"You are {sys.argv[1]}")
    if sys.argv[1] == "ann":
        Select(page.find_element(By.ID, "ceiling")).select_by_visible_text("test")
        words = {"hosts": "test1", "commands": "/usr/local/sbin/deploy", "length": "1h"}
        for field, text in (words | {"why": "deploy at noon"}).items():
            page.find_element(By.ID, field).send_keys(text)
        press(page, "#show")
        see(page, "Ask for this?")
    else:
        press(page, "#waits-ann-2 button.approve")
        see(page, "Approve ann 2?")
    print(page.find_element(By.ID, "main").text)
    press(page, "#yes")
    see(page, "ann 2: ")
    print(page.find_element(By.CSS_SELECTOR, ".notice").text)
except BaseException:
    print(page.current_url, page.title, page.page_source[:400])
    raise
finally:
    page.quit()
"""
SLAPD = """include /etc/ldap/schema/core.schema
include /etc/ldap/schema/cosine.schema
include /etc/ldap/schema/inetorgperson.schema
modulepath /usr/lib/ldap
moduleload back_mdb
database mdb
suffix "dc=example"
rootdn "gidNumber=0+uidNumber=0,cn=peercred,cn=external,cn=auth"
directory /root/directory
"""
PEOPLE_TOML = """[ldap]
url = "ldapi://%2Frun%2Fldapi"
words = ["-Q", "-Y", "EXTERNAL"]
name = "uid"
[duties.operate]
ldap = "cn=operate,dc=example"
"""


def today() -> str:
    """The day, as a roster has it. (It may be the next one before a change is made.)"""
    return time.strftime("%Y%m%d", time.gmtime())


def until(room: Room, check: str) -> bool:
    """Waits until a command of the root is well."""
    ends = time.monotonic() + PATIENCE
    while time.monotonic() < ends:
        if room.run(check).returncode == 0:
            return True
        time.sleep(0.3)
    return False


def block(page: str, start: str, kind: str = "sh") -> str:
    """The first block of a kind behind a line that begins so."""
    behind = desk.read("docs", page).split(f"\n{start}", 1)[1]
    found = re.search(rf"^```{kind}\n(.*?)^```$", behind, re.MULTILINE | re.DOTALL)
    return found[1] if found else "exit 99"


def prepare(room: Room) -> None:
    """(a server of mails, and the name of the machine as a ticket has it; the page sends nothing
    that is signed, so the door keeps its journal alone from here on)"""
    room.run("sed -i 's/^signing = .*/signing = \"no\"/' /etc/desk/door.toml")
    room.run("sed -i 's/^required = true/required = false/' /etc/desk/relay.toml")
    done = room.run("systemctl restart desk-door && systemctl enable --now desk-relay-post")
    room.holds("a door without signatures", done.returncode == 0, done)
    room.write(f"{BOOK}/unit", desk.read("relays", "tests", "systemctl.sh"), 0o755)
    room.write("/etc/hosts", "127.0.0.1 desk.example localhost\n")
    room.run("mkdir -p /run/lock")
    served = "setsid python3 -m aiosmtpd -n -l 127.0.0.1:25 -c aiosmtpd.handlers.Mailbox /tmp/mails"
    room.run(f"{served} > /tmp/smtp.log 2>&1 < /dev/null &")


def told(room: Room) -> None:
    """Ben has a mail when ann asks, by the settings of RELAYS.md."""
    settings = block("RELAYS.md", "## People are told", "toml")
    settings = settings.replace('"desk.example"]', '"desk.example", "--smtp", "127.0.0.1:25"]')
    room.run("cat >> /etc/desk/relay.toml <<< \"$MORE\"", MORE=f"\n{settings}")
    done = room.run("systemctl enable --now desk-relay-notify")
    room.holds("who tells people", done.returncode == 0, done)
    box = "/var/lib/desk-relay/outbox.db"  # (root's sqlite3 would make one that is not there)
    is_ready = until(room, f"[ -s {box} ] && sqlite3 {box} 'SELECT * FROM told_from'")
    room.holds("it begins", is_ready, room.run("cat /tmp/desk-relay-notify.log"))


def on_the_page(room: Room) -> None:
    """Ann signs on with her ticket and asks; ben is told, and approves."""
    room.write("/etc/krb5.conf", REALM)
    done = room.run(KDC)
    room.holds("a KDC", done.returncode == 0, done)
    done = room.run("systemctl enable --now desk-relay-page")
    socket = "/run/desk-relay/page.sock"
    is_there = until(room, f"curl -s -o /dev/null --unix-socket {socket} http://page/")
    room.holds("the page", done.returncode == 0 and is_there, done)
    # (nginx is the desk's front here)
    ports = ": > /etc/apache2/ports.conf"
    room.holds("whose ports", f"`{ports}`" in desk.read("docs", "RELAYS.md"))
    done = room.run(f"set -e\n{ports}\n" + block("RELAYS.md", "**Kerberos**"))
    room.holds("Apache before it", done.returncode == 0, done)
    is_there = until(room, "curl -sk -o /dev/null https://desk.example:8443/")
    room.holds("it answers", is_there, room.run("tail -n 5 /var/log/apache2/error.log"))
    done = in_a_browser(room, "ann")
    room.holds("before the yes", "deploy at noon" in done.stdout and "UTC" in done.stdout, done)
    waits = (
        "ann 2: It waits for approval. It needs 1 approval; nobody approved it yet; ben, carol may"
        " approve it."
    )
    room.holds("and after it", waits in done.stdout, done)
    mailed = until(room, "grep -rqs 'Subject: .*ann: .*deploy at noon' /tmp/mails/new")
    mails = room.run("cat /tmp/mails/new/*").stdout
    is_right = mailed and "To: ben@desk.example" in mails and "deploy at noon" in mails
    room.holds("a mail to ben", is_right, (mails, room.run("cat /tmp/desk-relay-notify.log")))
    done = in_a_browser(room, "ben")
    is_shown = "/usr/local/sbin/deploy" in done.stdout and "deploy at noon" in done.stdout
    room.holds("what ben approves", is_shown, done)
    room.holds("and he does", "The desk has your approval." in done.stdout, done)
    mailed = until(room, "grep -rqs 'X-Desk-Event: granted' /tmp/mails/new")
    room.holds("a mail to ann", mailed, room.run("grep -h Subject /tmp/mails/new/*"))
    told_there = room.text("/v1/requests/ann/2")
    room.holds("the desk tells it", '"status":"granted"' in told_there, told_there)


def in_a_browser(room: Room, person: str) -> desk.Run:
    """What a person does at the page, in a browser that has no other right there than a ticket."""
    if not os.path.exists(room.path(f"{BOOK}/at_the_page.py")):
        shutil.copy(os.path.join(desk.ROOT, "relays", "tests", "chromium.py"), room.path(BOOK))
        room.write(f"{BOOK}/at_the_page.py", AT_THE_PAGE)
        os.makedirs(room.path("/etc/chromium/policies/managed"), exist_ok=True)
        room.write("/etc/chromium/policies/managed/desk.json", POLICY)
        told = "AuthServerAllowlist" in desk.read("docs", "RELAYS.md")
        done = room.run(BROWSER)
        room.holds("their browsers", told and done.returncode == 0, done)
    account = f"setpriv --reuid {person} --regid {person} --init-groups"
    home = f"HOME=/home/{person} PATH=/usr/bin:/bin LC_ALL=C.UTF-8"
    return room.run(f"cd /tmp && {account} env {home} python3 {BOOK}/at_the_page.py {person}")


def from_a_directory(room: Room) -> None:
    """gina joins a group of a real slapd, and fred leaves it."""
    names = ("ann", "ben", "carol", "eric", "gina")
    people = "dn: dc=example\nobjectClass: domain\ndc: example\n\n"
    for name in names:
        kinds = f"objectClass: inetOrgPerson\nuid: {name}\nsn: {name}\ncn: {name}\n\n"
        people += f"dn: uid={name},dc=example\n{kinds}"
    members = "".join(f"member: uid={it},dc=example\n" for it in names)
    people += f"dn: cn=operate,dc=example\nobjectClass: groupOfNames\ncn: operate\n{members}"
    room.write("/root/slapd.conf", SLAPD)
    room.write("/root/site.ldif", people)
    room.write("/etc/desk/people.toml", PEOPLE_TOML)
    made = room.run(
        "mkdir /root/directory && slapadd -f /root/slapd.conf -l /root/site.ldif &&"
        " slapd -f /root/slapd.conf -h ldapi://%2Frun%2Fldapi"
    )
    room.holds("a slapd", made.returncode == 0 and until(room, "test -S /run/ldapi"), made)
    (lines,) = re.findall(r"^```sh\n(.*?)^```$", desk.read("docs", "PEOPLE.md"), re.M | re.S)
    first = today()
    done = room.run('yes | bash -c "$BLOCK"', BLOCK=lines)
    served, day = room.read("/etc/desk/roster.toml"), f"(?:{first}|{today()})"
    gina = rf'^gina = \[{{ duty = "operate", from = "{day}", until = "20991231" }}\]$'
    joined = re.search(gina, served, re.MULTILINE)
    fred = rf'^fred = \[{{ duty = "operate", from = "\d+", until = "{day}" }}\]$'
    left = re.search(fred, served, re.MULTILINE)
    is_right = joined is not None and left is not None
    room.holds("who joined, and who left", is_right, (done, served))
    digest = room.run("sha256sum < /etc/desk/roster.toml").stdout.split()[0]
    room.holds("the desk has it", room.text("/v1/count").split()[1] == digest, done)


def asked_by_an_auditor(room: Room) -> None:
    """The lines of AUDITING.md, through the front: the desk tells what was asked, and desk-used
    reads it."""
    lines = block("AUDITING.md", "## From a desk that is served", "")
    made = room.run("sh /usr/share/doc/steelnewt/examples/front-ca.sh /etc/desk/front auditor web")
    room.holds("an auditor's certificate", made.returncode == 0, made)
    done = room.run(f"cd /etc/desk/front && : > sudo.log && set -eo pipefail\n{lines}")
    is_told = done.returncode == 0 and re.search(r"^GRANTS\nann 1  prod1 ", done.stdout, re.M)
    room.holds("what was granted", is_told is not None and is_told is not False, done)
    names = room.run("jq -r '.names[].status' /etc/desk/front/audit.json").stdout
    room.holds("each request", names == "granted\ngranted\n", names)


def end(room: Room) -> None:
    """(slapd and the others would keep the root busy)"""
    pids = "/run/apache2/apache2.pid /tmp/desk-relay-page.pid /tmp/desk-relay-notify.pid"
    room.run(f"kill $(cat {pids})")


PARTS = (prepare, told, on_the_page, from_a_directory, asked_by_an_auditor, end)
