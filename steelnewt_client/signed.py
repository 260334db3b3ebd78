"""A message with its author's own signature (docs/SIGNING.md). It travels as one line, which every
program here carries:

    MESSAGE <tab> SIGNATURE [<tab> ABOUT [<tab> WHY]]

No message has a tab, so `cut -f1` gives the messages back. ABOUT, of an approval alone, is the
SHA-256 of the request that the approver was shown; WHY is that of the reason and the ticket.

A signature is `ssh:` and the base64 of ssh-keygen's, or `webauthn:` and a passkey's assertion: four
parts in base64url with dots between them. For a list it is `list:` or `webauthn-list:`, the same, a
colon, and the base64 of the digests of all that was signed with one touch.
"""

import base64
import binascii
import hashlib
import json
import re
from dataclasses import dataclass

from steelnewt_client.messages import MOST_BYTES, VERDICTS, Request, Verdict, Wish, canonical
from steelnewt_client.moments import of_stamp
from steelnewt_client.names import LABEL, PERSON

# What a signature of ssh-keygen's is made for: one of another purpose is none here.
NAMESPACE, LIST = "steelnewt-message@v1", "steelnewt-list@v1"
ENROLS, CHANGES = "steelnewt-enrol@v1", "steelnewt-change@v1"
# What a door signs of its own: what it answers to a host.
FILES = "steelnewt-file@v1"
NAMESPACES = (NAMESPACE, LIST, ENROLS, CHANGES, FILES)
# A site's own name, which is signed too: what was said to a desk for trials says nothing elsewhere.
SITE = re.compile(r"[a-z0-9][a-z0-9.-]{0,63}")
# Where a browser finds a page: by TLS, or on the person's own machine.
ORIGIN = r"https://[a-z0-9-]+(?:\.[a-z0-9-]+)*(?::[0-9]{1,5})?|http://localhost(?::[0-9]{1,5})?"
# How many messages one signature may be over.
MOST_LISTED = 64
MOST_SIGNATURE = 8_192
# The longest line: the message, the signature, two digests, and the tabs between them.
MOST_LINE = MOST_BYTES + MOST_SIGNATURE + 2 * 64 + 3
BASE64, BASE64URL = r"[A-Za-z0-9+/]+={0,2}", r"[A-Za-z0-9_-]+"
# The credential, the authenticator's data, the browser's, and the signature.
ASSERTION = rf"{BASE64URL}(?:\.{BASE64URL}){{3}}"
SIGNATURE = re.compile(
    rf"ssh:({BASE64})|list:({BASE64}):({BASE64})"
    rf"|webauthn:({ASSERTION})|webauthn-list:({ASSERTION}):({BASE64})"
)
PASSKEY = "webauthn"
DIGEST = re.compile(r"[0-9a-f]{64}")
NAME = re.compile(PERSON)
MOST_NO = 999_999_999
REQUEST_TEXTS = ("at", "by", "ceiling", "from", "runas", "until")
REQUEST_LISTS = ("cmnds", "hosts")
REQUEST = {*REQUEST_TEXTS, *REQUEST_LISTS, "kind", "no"}
VERDICT = {"at", "by", "kind", "no", "of"}


class BadLine(ValueError):
    """The line is no message with a signature; or no message, by the code that says why."""


@dataclass(frozen=True)
class Signed:
    """A message's text, its author's signature, the request that it is about, and why. The last
    three are empty where there are none."""

    message: str
    signature: str = ""
    about: str = ""
    why: str = ""

    def line(self) -> str:
        """The line, without what is empty at its end."""
        return "\t".join([self.message, self.signature, self.about, self.why]).rstrip("\t")

    @property
    def digest(self) -> str:
        return digest(self.message)

    def payload(self, site: str) -> bytes:
        """What its author says for a site, in bytes. A message is one line, and each digest has one
        form, so nothing else has these bytes."""
        said = "\n".join([site, self.message, self.about, self.why])
        return said.rstrip("\n").encode("utf-8")

    def said(self, site: str) -> str:
        """The digest of that, as a list has it."""
        return hashlib.sha256(self.payload(site)).hexdigest()

    @property
    def is_by_passkey(self) -> bool:
        return self.signature.startswith(PASSKEY)

    def signed_bytes(self, site: str) -> tuple[str, bytes, bytes]:
        """The namespace, the bytes that were signed, and the signature, which is an assertion's
        text where a passkey made it. Where it is of a list, this message has to be in that."""
        found = SIGNATURE.fullmatch(self.signature)
        try:
            if not found:
                raise ValueError("it has not the form of a signature")
            ssh, ssh_list, ssh_listed, passkey, passkey_list, passkey_listed = found.groups()
            given = passkey or passkey_list
            raw = given.encode() if given else base64.b64decode(ssh or ssh_list, validate=True)
            if ssh or passkey:
                return NAMESPACE, self.payload(site), raw
            listed = listed_in(base64.b64decode(ssh_listed or passkey_listed, validate=True))
        except (binascii.Error, ValueError) as fault:
            raise BadLine(f"A20 BadSignature: {fault}") from None
        if self.said(site) not in listed:
            raise BadLine("A20 BadSignature: its list does not have this message")
        return LIST, list_payload(site, listed), raw


def digest(text: str) -> str:
    return hashlib.sha256(text.encode("utf-8")).hexdigest()


def reason_digest(why: str, ticket: str) -> str:
    """The digest of a reason and a ticket; empty where there is neither."""
    if not why and not ticket:
        return ""
    return digest(canonical({"ticket": ticket, "why": why}))


def list_payload(site: str, listed: list[str]) -> bytes:
    """What is signed of a list: the site's name, and the digest of each message's payload."""
    return "\n".join([site, *listed]).encode("ascii")


def answer_payload(site: str, route: str, answer: bytes) -> bytes:
    """What a door signs of an answer: the site's name, the question, in which the host and its own
    random number are, and the answer. (Neither of the first two has a newline.)"""
    return f"{site}\n{route}\n".encode("ascii") + answer


def listed_in(raw: bytes) -> list[str]:
    """The digests of a list, which has each once."""
    found = [raw[at : at + 32].hex() for at in range(0, len(raw), 32)]
    if len(raw) % 32 or not 1 <= len(found) <= MOST_LISTED or len(set(found)) != len(found):
        raise ValueError("it is no list of digests")
    return found


def list_signature(raw: str, listed: list[str], kind: str = "list") -> str:
    """The field of each message of a list, of the signature over it."""
    digests = base64.b64encode(bytes.fromhex("".join(listed))).decode("ascii")
    return f"{kind}:{raw}:{digests}"


def challenge(namespace: str, what: bytes) -> bytes:
    """What a passkey is asked to sign in the place of bytes that ssh-keygen would sign."""
    return hashlib.sha256(namespace.encode("ascii") + b"\0" + what).digest()


def enrolling(site: str, person: str, word: str) -> bytes:
    """What somebody signs with a key that they enrol: the word was made for them."""
    return "\n".join([site, person, word]).encode("ascii")


def read_line(line: bytes) -> Signed:
    """A line's parts, each of its form. The message is looked at by nobody yet."""
    parts = line.split(b"\t")
    if len(parts[0]) > MOST_BYTES:
        raise BadLine("M1 TooLong")
    try:
        message, *rest = (it.decode("utf-8") for it in parts)
    except ValueError:
        raise BadLine("M2 NotCanonical") from None
    signature, about, why = [*rest, "", "", ""][:3]
    forms = ((SIGNATURE, signature), (DIGEST, about), (DIGEST, why))
    if len(rest) > 3 or len(signature) > MOST_SIGNATURE:
        raise BadLine("A20 BadSignature")
    if any(text and not form.fullmatch(text) for form, text in forms):
        raise BadLine("A20 BadSignature")
    return Signed(message, signature, about, why)


def is_too_long(line: bytes) -> bool:
    """Whether a desk, or the door before it, refuses it by its length alone."""
    return len(line) > MOST_LINE or len(line.partition(b"\t")[0]) > MOST_BYTES


def no_number(text: str) -> object:
    """In the place of a number that is not a whole one."""
    raise ValueError(text)


# (json.loads makes one for each text)
DECODER = json.JSONDecoder(parse_float=no_number, parse_constant=no_number)


def said_in(text: str) -> Request | Verdict:
    """What a text says, if it is a message's only text: so nobody reads another name in it. Whether
    its commands and hosts are lawful, the desk says."""
    try:
        found = DECODER.decode(text)
        is_canonical = canonical(found) == text and len(text.encode("utf-8")) <= MOST_BYTES
    except (ValueError, RecursionError):
        is_canonical, found = False, None
    if not is_canonical:
        raise BadLine("M2 NotCanonical")
    if not isinstance(found, dict) or not is_common(found):
        raise BadLine("M3 BadField")
    if found["kind"] == "request":
        return request_of(found)
    if found["kind"] not in VERDICTS or found.keys() != VERDICT or not is_name(found["of"]):
        raise BadLine("M3 BadField")
    return Verdict(**found)


def is_name(text: object) -> bool:
    return isinstance(text, str) and NAME.fullmatch(text) is not None


def is_moment(text: object) -> bool:
    try:
        return isinstance(text, str) and bool(of_stamp(text))
    except ValueError:
        return False


def is_common(found: dict[str, object]) -> bool:
    """What every message has: its kind, its author, its moment and its number."""
    no = found.get("no")
    is_number = isinstance(no, int) and not isinstance(no, bool) and 0 <= no <= MOST_NO
    is_kind = isinstance(found.get("kind"), str)
    return is_number and is_kind and is_name(found.get("by")) and is_moment(found.get("at"))


def request_of(found: dict[str, object]) -> Request:
    texts = {name: found.get(name) for name in REQUEST_TEXTS}
    lists = [found.get(name) for name in REQUEST_LISTS]
    is_text = all(isinstance(it, str) for it in texts.values()) and all(
        isinstance(it, list) and all(isinstance(word, str) for word in it) for it in lists
    )
    is_formed = is_text and re.fullmatch(LABEL, str(texts["ceiling"])) and is_name(texts["runas"])
    are_moments = is_moment(texts["from"]) and is_moment(texts["until"])
    if found.keys() != REQUEST or not is_formed or not are_moments:
        raise BadLine("M3 BadField")
    cmnds, hosts = (tuple(it) for it in lists if isinstance(it, list))
    window = str(texts["from"]), str(texts["until"])
    wish = Wish(str(texts["ceiling"]), hosts, str(texts["runas"]), cmnds, *window)
    return Request(str(texts["by"]), int(str(found["no"])), str(texts["at"]), wish)
