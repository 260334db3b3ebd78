"""What OpenSSH and other programs write on Windows and macOS: taken where it is sound, and refused
by a name where it is not."""

import codecs
import subprocess
from dataclasses import replace
from pathlib import Path

import pytest

from door.tests.doors import MYDESK, SITE, Doored, keygen
from door.tests.people import Person, behind_door, script
from steelnewt_client.signed import NAMESPACE

BEGIN, END = "-----BEGIN SSH SIGNATURE-----", "-----END SSH SIGNATURE-----"
# What rewrites the signature of the real ssh-keygen: lines of an awk or Python program's.
SOUND = {
    "as it is": "said",
    "lines that end as on Windows": r"said.replace(b'\n', b'\r\n')",
    "a mark before it": r"b'\xef\xbb\xbf' + said",
    "UTF-16, as PowerShell writes it": r"codecs.BOM_UTF16_LE + wide('utf-16-le')",
    "UTF-16 the other way round": r"codecs.BOM_UTF16_BE + wide('utf-16-be')",
    "lines of 64": "framed(64)",
    "lines of 76, as PEM has them": "framed(76)",
    "one line": "framed(9999)",
    "empty lines round it": r"b'\n\r\n' + said + b'\n\n'",
    "no end of the last line": r"said.rstrip(b'\n')",
}
ODD = {
    "nothing": "b''",
    "words before it": r"b'Signing data on standard input\n' + said",
    "another frame": "said.replace(b'SSH SIGNATURE', b'SIGNATURE')",
    "another end": "said.replace(b'END SSH', b'END PGP')",
    "two of them": "said + said",
    "no frame": r"b'\n'.join(said.splitlines()[1:-1])",
    "a field, as PEM may have": r"said.replace(b'-----\n', b'-----\nComment: mine\n', 1)",
    "the base64 of addresses": "said.replace(b'U1NIU0lH', b'U1NIU0l-')",
    "cut short": r"b'\n'.join([said.splitlines()[0], b'U1NI', said.splitlines()[-1]])",
    "something else": r"b'\n'.join([said.splitlines()[0], b'AAAA', said.splitlines()[-1]])",
}
KEYGEN = """\
import codecs, subprocess, sys
def wide(name):
    return said.decode().replace('\\n', '\\r\\n').encode(name)
def framed(width):
    first, *lines, last = said.splitlines()
    text = b''.join(lines)
    cut = [text[at : at + width] for at in range(0, len(text), width)]
    return b'\\n'.join([first, *cut, last, b''])
ran = subprocess.run(['/usr/bin/ssh-keygen', *sys.argv[1:]], stdout=subprocess.PIPE)
said = ran.stdout
sys.stdout.buffer.write({rewritten})
sys.exit(ran.returncode)
"""


@pytest.fixture(scope="module")
def site(shared: Doored) -> Doored:
    behind_door(shared)
    return shared


def person(site: Doored, rewritten: str) -> Person:
    found = Person(site, "bob")
    path = found.home / "bin" / "ssh-keygen"
    script(path, f"exec /usr/bin/python3 {path}.py \"$@\"")
    Path(f"{path}.py").write_text(KEYGEN.format(rewritten=rewritten))
    return found


@pytest.fixture
def numbered(site: Doored) -> Doored:
    site.block += 100
    return site


@pytest.mark.parametrize("what", SOUND)
def test_a_signature_as_others_write_it(numbered: Doored, what: str) -> None:
    no = numbered.block + 1
    assert numbered.post(numbered.sign("ann", numbered.request())) == "ack"
    said = person(numbered, SOUND[what]).run("revoke", "ann", str(no))
    assert f"ann {no}" in said and len(numbered.held()) == 2
    assert [it["how"] for it in numbered.came()] == ["signed", "signed"]


@pytest.mark.parametrize("what", ODD)
def test_a_signature_that_is_none(numbered: Doored, what: str) -> None:
    no = numbered.block + 1
    assert numbered.post(numbered.sign("ann", numbered.request())) == "ack"
    said = person(numbered, ODD[what]).run("revoke", "ann", str(no), status=2)
    assert "ssh-keygen wrote something else than one signature" in said
    assert len(numbered.held()) == 1


def test_a_signature_with_the_shorter_digest(doored: Doored) -> None:
    """ssh-keygen -O hashalg=sha256, as some tools do."""
    text = doored.verdict(kind="revoke")
    signed = doored.sign("bob", text)
    words = ["-Y", "sign", "-O", "hashalg=sha256", "-f", str(doored.folder / "bob"), "-n"]
    raw = keygen(*words, NAMESPACE, "-", given=signed.payload(SITE)).decode()
    bare = "".join(raw.splitlines()[1:-1])
    assert doored.post(replace(signed, signature=f"ssh:{bare}")) == "ack"


@pytest.mark.parametrize(
    "change",
    [
        lambda it: it + "\r", lambda it: it + "\n", lambda it: it + "\r\n", lambda it: it + " ",
        lambda it: it[:74] + "\n" + it[74:], lambda it: it[:74] + "\r\n" + it[74:],
        lambda it: it.rstrip("=") + "*", lambda it: f"ssh:{BEGIN}{it[4:]}{END}",
        lambda it: it.replace("U1NIU0lH", "U1NIU0l-"), lambda it: "\ufeff" + it,
    ],
)  # fmt: skip
def test_a_line_has_one_form(doored: Doored, change: object) -> None:
    """A site's own program has to write the base64 in one piece: else the door says so."""
    signed = doored.sign("bob", doored.verdict(kind="revoke"))
    odd = replace(signed, signature=change(signed.signature))  # type: ignore[operator]
    assert doored.post(odd) == "A20 BadSignature" and doored.held() == []
    for line in (signed.line() + "\r\n", "\ufeff" + signed.line()):
        assert doored.post(line)[:2] in ("M2", "A2")


# --- what root gets of people's machines

WRITTEN = [
    lambda it: it.replace(b"\n", b"\r\n"), lambda it: codecs.BOM_UTF8 + it,
    lambda it: codecs.BOM_UTF16_LE + it.decode().replace("\n", "\r\n").encode("utf-16-le"),
    lambda it: codecs.BOM_UTF16_BE + it.decode().encode("utf-16-be"), lambda it: it.rstrip(b"\n"),
]


@pytest.mark.parametrize("number", range(len(WRITTEN)))
def test_a_key_as_others_write_it(tmp_path: Path, number: int) -> None:
    still = Doored(tmp_path)
    still.new_key("dave")
    path = Path(still.public("dave"))
    path.write_bytes(WRITTEN[number](path.read_bytes()))
    said = still.signer("add", "dave", str(path), "--unproved")
    assert "+ dave ssh-ed25519 SHA256:" in said
    # what mydesk writes of a key comes the same way
    word = still.signer("enrol", "carol").splitlines()[0]
    still.new_key("carol2")
    public = Path(still.public("carol2"))
    public.write_bytes(WRITTEN[number](public.read_bytes()))
    mine = Person(still, "carol", key=str(still.folder / "carol2"))
    enrolled = still.folder / "enrolled"
    enrolled.write_bytes(WRITTEN[number](mine.run("enrol", word).encode()))
    assert "+ carol ssh-ed25519 SHA256:" in still.signer("add", "carol", str(enrolled))


@pytest.mark.parametrize("form", ["RFC4716", "PKCS8", "PEM"])
def test_a_key_in_another_frame(tmp_path: Path, form: str) -> None:
    """As `ssh-keygen -e`, OpenSSL and PuTTY write one: refused by a name, with the way on."""
    still = Doored(tmp_path)
    key = still.new_key("dave", "rsa")
    made = subprocess.run(["ssh-keygen", "-e", "-m", form, "-f", f"{key}.pub"], capture_output=True)
    path = still.folder / "framed"
    path.write_bytes(made.stdout.replace(b"\n", b"\r\n"))
    said = still.signer("add", "dave", str(path), "--unproved", status=2)
    assert "no public key alone, on one line" in said and made.stdout


@pytest.mark.parametrize("number", range(len(WRITTEN)))
def test_a_yes_as_others_write_it(tmp_path: Path, number: int) -> None:
    """The change comes to a person, and their yes comes back, by Windows' programs."""
    still = Doored(tmp_path)
    still.configure(more="changes_by = 2\n")
    still.new_key("dave")
    still.signer("add", "dave", still.public("dave"), "--unproved", status=3)
    draft = (still.folder / "signers" / "draft" / "to-sign").read_bytes()
    given = still.folder / "to-sign"
    given.write_bytes(WRITTEN[number](draft) if number != 4 else draft)
    files = []
    for name in ("ann", "bob"):
        environment = {"HOME": str(Person(still, name).home), "PATH": "/usr/bin:/bin"}
        words = [str(MYDESK), "agree", str(given)]
        yes = subprocess.run(words, input=b"y\n", capture_output=True, check=True, env=environment)
        files.append(still.folder / f"{name}.yes")
        files[-1].write_bytes(WRITTEN[number](yes.stdout))
    assert "hold" in still.signer("put", *map(str, files))
