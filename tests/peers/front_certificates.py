#!/usr/bin/env python3
"""Asks through the fronts of examples/ and of the page with certificates that are odd, that end,
and that are revoked: whole subjects alone count, and neither a session that is resumed nor a
connection that is kept outlives its certificate.

Behind each front stands a program that answers all it is asked with the person whom the front
named: what gets there is what the front lets through.
"""

import concurrent.futures
import contextlib
import http.server
import math
import os
import re
import shutil
import socket
import ssl
import subprocess
import sys
import tempfile
import threading
import time
from collections.abc import Iterator

from tests.common import desk, front
from tests.common.ports import free_port

Row = tuple[str, bool, object]
PAGE = os.path.join(desk.ROOT, "relays", "front.example.conf")
FILE = b"/v1/hosts/db1/sudoers"
# The seconds for which a certificate holds that ends while somebody uses it. (Where the machine is
# so slow that it ends before anybody came with it, the next one.)
LIVES = (12, 40, 120)
KEPT = 2  # the seconds for which a connection is kept here; the examples keep it for a minute
AFTER = 5  # the seconds after a certificate's end at which nothing goes on
MOST = 100  # the requests that a connection takes
NAMED = re.compile(rb"person=([^\r\n]*)")

# Subjects that the authority may have signed, and that are not exactly a host's: the rights of none
# are those of the host db1.
ODD = [
    "/OU=host+CN=db1",
    "/CN=db1+OU=host",
    "/OU=host/CN=db1/CN=db2",
    "/OU=host/CN=db2/CN=db1",
    "/OU=host/CN=db1/CN=db1",
    "/O=site/OU=host/CN=db1",
    "/OU=host/O=site/CN=db1",
    "/OU=host/CN=db1/O=site",
    "/CN=db1/OU=host",
    "/OU=relay/OU=host/CN=db1",
    "/OU=host/OU=relay/CN=db1",
    "/OU=host/OU=host/CN=db1",
    "/DC=example/OU=host/CN=db1",
    "/OU=host/CN=db1/emailAddress=a@b.example",
    "/OU=host/CN=db1/serialNumber=7",
    "/OU=host/CN=db1,OU=host",
    "/CN=db1,OU=host",
    "/OU=host/CN=DB1",
    "/OU=Host/CN=db1",
    "/OU=hosts/CN=db1",
    "/OU=host /CN=db1",
    "/OU=host/CN=db1 ",
    "/OU=host/CN= db1",
    "/OU=host/CN=db1\n",
    "/OU=host/CN=db",
    "/OU=host/CN=db10",
    "/OU=auditor/CN=db1",
    "/OU=person/CN=db1",
    "/OU=host",
    "/CN=db1",
]
# the same for the page, whose people have a name alone or OU=person beside it
ODD_PEOPLE = [
    "/OU=person+CN=ann",
    "/OU=person/CN=ann/CN=bob",
    "/OU=person/CN=ann/CN=ann",
    "/O=site/OU=person/CN=ann",
    "/O=site/CN=ann",
    "/CN=ann/OU=person",
    "/CN=bob/CN=ann",
    "/OU=host/CN=ann",
    "/OU=relay/CN=ann",
    "/OU=auditor/CN=ann",
    "/OU=person/CN=ann,OU=person",
    "/OU=person/CN=Ann",
    "/OU=person/CN=ann\n",
    "/OU=person/CN=ann\nX-Desk-Person: bob",
    "/OU=person",
]


CLIENTS = [
    ["host", "db1"],
    ["host", "db9"],
    ["relay", "chat"],
    ["auditor", "carol"],
    ["person", "ann"],
    ["person", "ann9"],
    ["person", "a.b_c-d"],
    ["person", "db1"],
    ["person", "chat"],
    ["person", "carol"],
]
# what a certificate may ask the desk's front, and a person's of the same name may not
RIGHTS = [
    ("host", "db1", b"GET /v1/hosts/db1/sudoers"),
    ("host", "db1", b"GET /v1/count"),
    ("relay", "chat", b"POST /v1/relays/chat/messages"),
    ("auditor", "carol", b"GET /v1/messages"),
    ("auditor", "carol", b"GET /v1/requests/ann/7"),
    ("auditor", "carol", b"GET /v1/reviews/20260105093000Z"),
]


class Behind(http.server.BaseHTTPRequestHandler):
    """Answers each request with the person whom the front named."""

    protocol_version = "HTTP/1.1"

    def do_GET(self) -> None:
        # (behind the name the front says by which certificate)
        person, _, key = self.headers.get("X-Desk-Person", "").partition("; ")
        is_told = re.fullmatch("certificate [0-9A-F]+ from 127.0.0.1", key)
        body = f"person={person if is_told else ''}\n".encode()
        self.send_response(200)
        self.send_header("Content-Length", str(len(body)))
        self.end_headers()
        self.wfile.write(body)

    def do_POST(self) -> None:
        self.rfile.read(int(self.headers["Content-Length"]))
        self.do_GET()

    def log_message(self, *_: object) -> None:
        pass


class Front:
    """A front with its files in a folder, before a program that answers; `ask` is a request to
    which a sound certificate gets 200."""

    def __init__(self, folder: str, kind: str) -> None:
        self.folder, self.kind, self.port = folder, kind, free_port()
        self.behind = http.server.ThreadingHTTPServer(("127.0.0.1", 0), Behind)
        threading.Thread(target=self.behind.serve_forever, daemon=True).start()
        address = f"127.0.0.1:{self.behind.server_port}"
        self.conf = os.path.join(folder, "haproxy.cfg" if kind == "haproxy" else "nginx.conf")
        if kind == "page":
            self.words = page_words(folder, self.port, address)
        else:
            make = front.haproxy_words if kind == "haproxy" else front.nginx_words
            self.words = make(folder, self.port, address)
        text = re.sub(r"(keepalive_time +)60s", rf"\g<1>{KEPT}s", desk.read(self.conf))
        desk.write(folder, os.path.basename(self.conf), text)
        target = b"/" if kind == "page" else FILE
        self.ask = b"GET %s HTTP/1.1\r\nHost: desk\r\n\r\n" % target
        self.client = ("person", "ann") if kind == "page" else ("host", "db1")

    def once(self, certificate: str) -> bytes:
        """The reply to one request with a certificate of the authority's folder, or a path."""
        given = self.ask.replace(b"\r\n\r\n", b"\r\nConnection: close\r\n\r\n")
        return front.exchange(front.context(self.folder, certificate), self.port, given)

    def takes(self, certificate: str) -> bool:
        """Whether a certificate gets what its client may have, in its client's name."""
        return self.is_taken(self.once(certificate))

    def is_taken(self, reply: bytes) -> bool:
        if not reply.startswith(b"HTTP/1.1 200 "):
            return False
        named = NAMED.search(reply)
        return self.kind != "page" or (named is not None and named[1] != b"")


def page_words(folder: str, port: int, address: str) -> list[str]:
    """Writes the configuration of an nginx before a page, whose people are the authority's."""
    ca = os.path.join(folder, "ca")
    text = desk.read("relays", "front.example.conf").replace("listen 8443", f"listen {port}")
    text = re.sub(r"proxy_pass [^;]+;", f"proxy_pass http://{address};", text)
    text = text.replace("/etc/desk/front/", f"{ca}/").replace("/etc/desk", folder)
    text = text.replace("/var/log/nginx", folder)
    desk.write(folder, "page.front", "proxy_set_header X-Desk-Front secret;\n")
    temp = "".join(
        f"{name}_temp_path {folder}/{name};"
        for name in ("client_body", "proxy", "fastcgi", "uwsgi", "scgi")
    )
    head = f"user root; worker_processes 2; daemon off; pid {folder}/pid; error_log stderr;"
    events = "events { worker_connections 1024; }"
    # (as Debian's nginx.conf has it above the example)
    temp += " access_log off; ssl_protocols TLSv1 TLSv1.1 TLSv1.2 TLSv1.3;"
    whole = f"{head}\n{events}\nhttp {{ {temp}\n{text}\n}}\n"
    conf = desk.write(folder, "nginx.conf", whole)
    return [desk.tool("nginx"), "-c", conf, "-e", os.path.join(folder, "error.log")]


def odd(folder: str, name: str, subject: str, by: str = "ca", more: str = "") -> str:
    """A certificate of any subject that an authority signs: its path."""
    os.makedirs(os.path.join(folder, "odd"), exist_ok=True)
    path, signer = os.path.join(folder, "odd", name), os.path.join(folder, "ca", by)
    words = ["openssl", "req", "-x509", "-newkey", "ec", "-pkeyopt", "ec_paramgen_curve:P-256"]
    words += ["-nodes", "-days", "9", "-subj", subject, "-CA", f"{signer}.pem"]
    words += ["-CAkey", f"{signer}.key", "-keyout", f"{path}.key", "-out", f"{path}.pem"]
    for extension in ("basicConstraints=critical,CA:FALSE", more or "extendedKeyUsage=clientAuth"):
        words += ["-addext", extension]
    # (the extensions of a request's own section would make it an authority)
    conf = desk.write(folder, "req.conf", "[req]\ndistinguished_name = it\n[it]\n")
    ran = desk.run([*words, "-config", conf])
    if ran.returncode:
        sys.exit(f"openssl makes no {subject!r}: {ran.stderr}")
    return f"odd/{name}"


def subjects(it: Front) -> Iterator[Row]:
    """The client's own certificate, and each odd one."""
    yield "its own certificate", it.takes("-".join(it.client)), it.once("-".join(it.client))
    given = ODD_PEOPLE if it.kind == "page" else ODD
    for number, subject in enumerate(given):
        path = odd(it.folder, f"{it.kind}-{number}", subject)
        reply = it.once(path)
        yield f"the subject {subject!r}", not it.is_taken(reply), reply
    right = f"/OU={it.client[0]}/CN={it.client[1]}"
    plain = odd(it.folder, f"{it.kind}-plain", right)
    yield "the same subject, by openssl", it.takes(plain), it.once(plain)
    server = odd(it.folder, f"{it.kind}-server", right, more="extendedKeyUsage=serverAuth")
    yield "a server's certificate as a client's", not it.takes(server), it.once(server)
    minted = odd(it.folder, f"{it.kind}-minted", right, by="-".join(it.client))
    with open(os.path.join(it.folder, f"{minted}.pem"), "a", encoding="ascii") as file:
        file.write(desk.read(it.folder, "ca", f"{'-'.join(it.client)}.pem"))
    yield "one that a client has signed", not it.takes(minted), it.once(minted)
    if it.kind == "page":
        for name in ("host-db1", "relay-chat", "auditor-carol", "server"):
            yield f"{name} at the page", not it.takes(name), it.once(name)
        person = it.once("person-a.b_c-d")
        yield "a person's name", NAMED.findall(person) == [b"a.b_c-d"], person
    else:
        yield "a person at the desk", not it.takes("person-ann"), it.once("person-ann")


def people(it: Front) -> Iterator[Row]:
    """A person has no right of a relay, a host or an auditor of that name."""
    for kind, name, asked in RIGHTS if it.kind != "page" else []:
        head = b"%s HTTP/1.1\r\nHost: desk\r\nContent-Length: %d\r\nConnection: close\r\n\r\n"
        body = b"{}" if asked.startswith(b"POST") else b""
        for client, is_right in ((kind, True), ("person", False)):
            made = front.context(it.folder, f"{client}-{name}")
            reply = front.exchange(made, it.port, head % (asked, len(body)) + body)
            status = b"200" if is_right else b"403"
            yield f"{asked!r} as {client}", reply.startswith(b"HTTP/1.1 " + status), reply


def requests(it: Front) -> Iterator[Row]:
    """A connection takes so many requests and no more. (It is another client's than those above:
    most of these are too many.)"""
    replies = 0
    client = front.context(it.folder, "-".join(it.client).replace("db1", "db") + "9")
    with contextlib.suppress(OSError), connected(it, client) as peer:
        for _ in range(2 * MOST):
            peer.sendall(it.ask)
            if not peer.recv(65536):
                break
            replies += 1
    yield "the requests of a connection", 1 <= replies <= MOST, replies


def frame(kind: int, flags: int, stream: int, body: bytes = b"") -> bytes:
    """A frame of HTTP/2 (RFC 9113, section 4.1)."""
    head = len(body).to_bytes(3, "big") + bytes([kind, flags])
    return head + stream.to_bytes(4, "big") + body


def asks_in_http2(it: Front) -> Iterator[bytes]:
    """What comes back, second after second, for requests in HTTP/2 over one connection."""
    target = it.ask.split()[1]
    # (GET, https, the target, and the authority `desk`; RFC 7541, appendix A)
    fields = b"\x82\x87\x04" + bytes([len(target)]) + target + b"\x01\x04desk"
    client = front.context(it.folder, "-".join(it.client))
    with contextlib.suppress(OSError), connected(it, client) as peer:
        peer.settimeout(2)
        peer.sendall(b"PRI * HTTP/2.0\r\n\r\nSM\r\n\r\n" + frame(4, 0, 0))
        for stream in range(1, 2 * KEPT + 6, 2):
            peer.sendall(frame(1, 5, stream, fields))
            time.sleep(1)
            yield peer.recv(65536)


def http2(it: Front) -> Iterator[Row]:
    """No front speaks HTTP/2, whose connections last: not to who begins with it either."""
    replies = [*asks_in_http2(it)]
    is_served = any(b"person=" in reply for reply in replies)
    yield "requests in HTTP/2", not is_served, replies


@contextlib.contextmanager
def connected(it: Front, client: ssl.SSLContext) -> Iterator[ssl.SSLSocket]:
    with socket.create_connection(("127.0.0.1", it.port), timeout=20) as plain:
        with client.wrap_socket(plain, server_hostname="127.0.0.1") as peer:
            yield peer


def resumed(it: Front, name: str, version: str, begins: bool) -> tuple[bool, bytes]:
    """A connection by openssl that leaves its session, or takes up what was left: whether it was
    taken up, and the reply."""
    path = os.path.join(it.folder, name if "/" in name else f"ca/{name}")
    held = os.path.join(it.folder, f"session-{it.kind}-{name.replace('/', '-')}-{version}")
    if not begins and not os.path.exists(held):
        return False, b""
    words = ["openssl", "s_client", "-connect", f"127.0.0.1:{it.port}", "-cert", f"{path}.pem"]
    words += ["-key", f"{path}.key", "-CAfile", os.path.join(it.folder, "ca", "ca.pem")]
    words += [f"-{version}", "-ign_eof", "-sess_out" if begins else "-sess_in", held]
    given = it.ask.replace(b"\r\n\r\n", b"\r\nConnection: close\r\n\r\n")
    try:
        ran = subprocess.run(words, input=given, capture_output=True, timeout=20, check=False)
    except subprocess.TimeoutExpired as fault:
        return False, fault.stdout or b""
    reply = ran.stdout.partition(b"HTTP/1.1 ")
    return b"\nReused, " in ran.stdout, b"HTTP/1.1 " + reply[2] if reply[1] else b""


def sessions(it: Front) -> Iterator[Row]:
    for version in ("tls1_2", "tls1_3"):
        _, first = resumed(it, "-".join(it.client), version, True)
        is_reused, _ = resumed(it, "-".join(it.client), version, False)
        yield f"a session of {version}", it.is_taken(first) and not is_reused, first


def asks_on(it: Front, certificate: str, until: float) -> tuple[float, list[float]]:
    """Asks over one connection until it ends, or until a moment: when it was made, and when it was
    answered with what its client may have."""
    served: list[float] = []
    begun = math.inf
    client = front.context(it.folder, certificate)
    with contextlib.suppress(OSError), connected(it, client) as peer:
        begun = time.time()
        while time.time() < until:
            peer.sendall(it.ask)
            reply = peer.recv(65536)
            if not reply:
                break
            if it.is_taken(reply):
                served.append(time.time())
            time.sleep(0.5)
    return begun, served


def outlived(it: Front) -> list[Row]:
    """A certificate ends while a connection is open, and sessions of it are kept."""
    it.ask = it.ask.replace(FILE, FILE.replace(b"db1", b"db1x"))
    for life in LIVES:
        is_late, found = outlived_by(it, life)
        if not is_late:
            break
        print(f"a certificate of {life} seconds was over before a connection was made with it")
    it.ask = it.ask.replace(b"db1x", b"db1")
    return found


def outlived_by(it: Front, life: int) -> tuple[bool, list[Row]]:
    """The same of one that holds for some seconds; and whether it was over too early for that."""
    end = int(time.time()) + life
    dates = (desk.stamp(time.time() - 60), desk.stamp(end))
    kind, name = it.client
    front.certify(os.path.join(it.folder, "ca"), kind, f"{name}x", dates=dates)
    certificate = f"{kind}-{name}x"
    began = [resumed(it, certificate, version, True)[1] for version in ("tls1_2", "tls1_3")]
    time.sleep(max(0, end - 2 - time.time()))
    begun, served = asks_on(it, certificate, end + AFTER)
    late = [moment - end for moment in served if moment > end + KEPT + 1]
    time.sleep(max(0, end + 2 - time.time()))
    found: list[Row] = [
        ("a certificate that ends soon", all(map(it.is_taken, began)), began),
        ("a connection that is kept", served != [] and not late, late),
        ("a new connection", not it.takes(certificate), it.once(certificate)),
    ]
    for version in ("tls1_2", "tls1_3"):
        _, reply = resumed(it, certificate, version, False)
        found.append((f"a session of {version} after the end", not it.is_taken(reply), reply))
    return begun >= end, found


def revoked(it: Front) -> Iterator[Row]:
    """A client's certificates are revoked, and the front is restarted: none of them is served, over
    a connection and a session of before neither; who gets a new one is."""
    ca, certificate = os.path.join(it.folder, "ca"), "-".join(it.client)
    stolen = os.path.join(it.folder, "stolen")
    os.makedirs(stolen, exist_ok=True)
    for end in ("pem", "key"):
        shutil.copy(os.path.join(ca, f"{certificate}.{end}"), stolen)
    front.certify(ca, *it.client)
    both, later = [certificate, f"stolen/{certificate}"], b""
    with front.front(it.words, it.port):
        taken = [it.is_taken(resumed(it, *each, True)[1]) for each in each_session(both)]
        yield "both are served before it", all(taken), taken
        kept = contextlib.ExitStack()
        peer = kept.enter_context(connected(it, front.context(it.folder, both[1])))
        peer.sendall(it.ask)
        first = peer.recv(65536)
        begun = kept.enter_context(connected(it, front.context(it.folder, both[1])))
        begun.sendall(it.ask[:-2])
        front.certify(ca, "revoke", certificate)
    with kept, front.front(it.words, it.port):
        with contextlib.suppress(OSError):
            peer.sendall(it.ask)
            later = peer.recv(65536)
        yield "a connection of before", it.is_taken(first) and not it.is_taken(later), later
        with contextlib.suppress(OSError):
            begun.sendall(it.ask[-2:])
            later = begun.recv(65536)
        yield "a request that had begun", not it.is_taken(later), later
        for each in both:
            yield f"{each} is revoked", not it.takes(each), it.once(each)
        for name, version in each_session(both):
            _, reply = resumed(it, name, version, False)
            yield f"a session of {version} of {name}", not it.is_taken(reply), reply
        front.certify(ca, *it.client)
        yield "a new one is served", it.takes(certificate), it.once(certificate)


def each_session(certificates: list[str]) -> list[tuple[str, str]]:
    return [(name, version) for name in certificates for version in ("tls1_2", "tls1_3")]


def rows(folder: str, kind: str) -> list[Row]:
    """All that is asked of one front."""
    ca = os.path.join(folder, "ca")
    for words in (["init"], ["server", "desk.example", "127.0.0.1"], *CLIENTS):
        front.certify(ca, *words)
    it, found = Front(folder, kind), []
    with front.front(it.words, it.port):
        for part in (subjects, people, http2, sessions, outlived, requests):
            found += part(it)
    found += revoked(it)
    it.behind.shutdown()
    return found


def main() -> None:
    kinds = ["nginx", "page"] + ["haproxy"] * bool(desk.found("haproxy"))
    checks = wrong = 0
    with tempfile.TemporaryDirectory() as top, concurrent.futures.ThreadPoolExecutor() as pool:
        os.chmod(top, 0o755)
        folders = [os.path.join(top, kind) for kind in kinds]
        for folder in folders:
            os.mkdir(folder)
        for kind, found in zip(kinds, pool.map(rows, folders, kinds), strict=True):
            for what, is_right, said in found:
                checks += 1
                if not is_right:
                    wrong += 1
                    print(f"certificates at {kind}: {what}: otherwise. {str(said)[-300:]}")
    print(f"certificates at the fronts: {checks} checks, {wrong} wrong")
    sys.exit(1 if wrong else 0)


if __name__ == "__main__":
    main()
