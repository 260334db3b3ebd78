"""The door's own page, at an origin of its own: where people see what they are about to sign, touch
their passkey, and make one. No relay has a word in it but those that are signed too.

It is a process of its own, as an account that may ask the desk and nothing else; what is signed
goes back to the relay's page, which keeps and posts it, and the door judges it. The front says who
is calling, and nobody but the front's account opens the socket.
"""

import base64
import logging
import os
import re
from collections.abc import Callable
from typing import Any

import flask
import waitress
from werkzeug.exceptions import HTTPException

from steelnewt_client.desk import Desk
from steelnewt_client.letters import plain, tidy
from steelnewt_client.moments import now, stamp
from steelnewt_client.names import PERSON
from steelnewt_client.signed import ENROLS, PASSKEY, enrolling, list_signature, said_in
from steelnewt_door.assertions import Assertion
from steelnewt_door.confirming import BadAsk, Page, Shown, signed_of, told_of, wanted
from steelnewt_door.judge import JudgeAway, print_of_blob
from steelnewt_door.passkeys import host_of, made_passkey
from steelnewt_door.settings import BadSettings, Settings
from steelnewt_door.signers import BadSigners, Signer, Signers
from steelnewt_door.wire import BadSignature

log = logging.getLogger("desk-door")
PERSON_HEADER = "X-Desk-Person"
# (Werkzeug takes a codec's name from whoever sends another one)
FORM = re.compile(r"(application/x-www-form-urlencoded( *; *charset=utf-8)?)?", re.IGNORECASE)
WORD = re.compile("[0-9a-f]{16}")
MOST_FORM = 256 << 10  # bytes: 64 requests, each with a reason
MOST_WHY = 500
LIMITS: dict[str, Any] = {
    "threads": 16, "connection_limit": 200, "channel_timeout": 20, "cleanup_interval": 5,
    "asyncore_use_poll": True, "ident": None,
}  # fmt: skip
POLICY = (
    "default-src 'none'; script-src 'self'; style-src 'self'; connect-src 'self'; "
    "form-action {relays}; base-uri 'none'; frame-ancestors 'none'; "
    "require-trusted-types-for 'script'"
)
HEADERS = {
    "X-Content-Type-Options": "nosniff",
    # (a relay's page is told from which origin a form comes, and nothing more)
    "Referrer-Policy": "strict-origin",
    "Cache-Control": "no-store",
    "Cross-Origin-Opener-Policy": "same-origin",
    "Cross-Origin-Resource-Policy": "same-origin",
    "Permissions-Policy": "publickey-credentials-get=(self), publickey-credentials-create=(self)",
}
DOES = {"approve": "Approve", "refuse": "Refuse", "revoke": "Revoke"}


def create_app(settings: Settings) -> flask.Flask:
    app = flask.Flask("steelnewt_door", root_path=os.path.dirname(os.path.abspath(__file__)))
    app.jinja_env.trim_blocks = app.jinja_env.lstrip_blocks = True
    app.jinja_env.globals.update(plain=plain)
    app.config["MAX_CONTENT_LENGTH"] = MOST_FORM
    app.config["settings"] = settings
    relays = " ".join(settings.page.relays) or "'none'"
    headers = HEADERS | {"Content-Security-Policy": POLICY.format(relays=relays)}

    @app.before_request
    def begin() -> None:
        if not FORM.fullmatch(flask.request.headers.get("Content-Type", "")):
            flask.abort(415, "The form is not from the desk's page. Begin again.")
        person = flask.request.headers.get(PERSON_HEADER, "").partition(";")[0]
        if not re.fullmatch(PERSON, person):
            flask.abort(403, "The front does not say who you are: it takes your certificate.")
        flask.g.person = person

    @app.after_request
    def guard(reply: flask.Response) -> flask.Response:
        reply.headers.update(headers)
        return reply

    for kind in (BadAsk, BadSignature, BadSigners, JudgeAway, HTTPException):
        app.register_error_handler(kind, complain)
    app.add_url_rule("/confirm", "confirm", show_confirm, methods=["POST"])
    app.add_url_rule("/sign", "sign", look_at_signed, methods=["POST"])
    app.add_url_rule("/", "home", show_passkeys)
    app.add_url_rule("/passkey", "passkey", show_passkeys)
    app.add_url_rule("/passkey", "make", keep_passkey, methods=["POST"])
    return app


def settings_here() -> Settings:
    found: Settings = flask.current_app.config["settings"]
    return found


def complain(fault: Exception) -> tuple[str, int]:
    """What a person reads where something is wrong; the page's script, as a line."""
    status = getattr(fault, "code", None) or (503 if isinstance(fault, JudgeAway) else 400)
    text = plain(getattr(fault, "description", None) or str(fault))
    if flask.request.endpoint in ("sign", "make"):
        return text, status
    back = settings_here().page.relays
    return flask.render_template("wrong.html", text=text, back=back[0] if back else ""), status


def check_origin(*origins: str) -> str:
    """The origin that a form comes from, which has to be one of these."""
    origin = flask.request.headers.get("Origin", "")
    if origin not in origins:
        flask.abort(403, "The form came from another site: begin on the desk's page.")
    return origin


def passkeys_of(person: str) -> list[Signer]:
    """A person's passkeys that count now."""
    signers, at = Signers(settings_here().signers), stamp(now())
    if not signers.moments():
        return []  # (nobody has enrolled yet)
    version = signers.now()
    lost = version.revoked()
    mine = [it for it in version.passkeys() if it.name == person and it.public not in lost]
    here = settings_here().page.origin
    return [it for it in mine if it.counts_at(at) and it.origin == here]


def encoded(raw: bytes) -> str:
    return base64.urlsafe_b64encode(raw).decode("ascii").rstrip("=")


def ceremony(signers: list[Signer]) -> dict[str, str]:
    """What the script is told of this page's site and of somebody's passkeys."""
    page = settings_here().page
    ids = " ".join(encoded(it.passkey().id) for it in signers)
    is_verified = page.is_verified or any(it.is_verified for it in signers)
    rp = host_of(page.origin)
    return {"rp": rp, "ids": ids, "verification": "required" if is_verified else "preferred"}


def shown_of(kind: str) -> list[Shown]:
    """What a relay's page leads here for, as the door shows it."""
    settings, form = settings_here(), flask.request.form
    desk = Desk(f"unix:{settings.questions}", "")
    page = Page(desk, flask.g.person, stamp(now()), settings.rules.by_ssh)
    whys, tickets = form.getlist("reason"), form.getlist("ticket")
    if kind == "request":
        texts = form.getlist("message")
        if not len(texts) == len(whys) == len(tickets) == 1:
            raise BadAsk("one request is asked at a time")
        return [page.asked(texts[0], whys[0], tickets[0])]
    why = tidy(form.get("why", ""))
    if len(why) > MOST_WHY:
        raise BadAsk(f"a reason has at most {MOST_WHY} characters")
    return page.verdicts(kind, told_of(form.getlist("name"), whys, tickets), why)


def show_confirm() -> str:
    """Shows all that somebody is about to sign, and asks for one touch."""
    settings, form = settings_here(), flask.request.form
    back, kind = check_origin(*settings.page.relays), form.get("kind", "request")
    shown, mine = shown_of(kind), passkeys_of(flask.g.person)
    asked, listed = wanted(settings.site, shown)
    return flask.render_template(
        "confirm.html",
        person=flask.g.person,
        shown=shown,
        title=title_of(kind, shown),
        does=DOES.get(kind, "Ask"),
        kind=kind,
        # (a reason of this person's own is the same for all)
        why="" if shown[0].is_of_request else shown[0].why,
        back=back,
        to_request=form.get("back", "")[:1],
        has_passkey=bool(mine),
        challenge=encoded(asked),
        listed=list_signature("", listed).rpartition(":")[2] if listed else "",
        **ceremony(mine),
    )


def title_of(kind: str, shown: list[Shown]) -> str:
    if kind == "request":
        return "Ask for this?"
    what = shown[0].name if len(shown) == 1 else f"{len(shown)} requests"
    return f"{DOES[kind]} {what}?"


def look_at_signed() -> str:
    """Looks at what was touched on this page just now, before it goes back to the relay. (The door
    judges it when it comes.)"""
    settings, form = settings_here(), flask.request.form
    check_origin(settings.page.origin)
    texts, abouts, whys = (form.getlist(it) for it in ("message", "about", "digest"))
    version, judge = Signers(settings.signers).now(), settings.judge()
    for signed in signed_of(texts, abouts, whys, form.get("signature", "")):
        if said_in(signed.message).by != flask.g.person:
            raise BadAsk("this is a message of somebody else's")
        judge.key_of(version, flask.g.person, signed, stamp(now()))
    return "signed"


def show_passkeys() -> str:
    """Where somebody makes a passkey, and sees which ones they have."""
    mine = passkeys_of(flask.g.person)
    return flask.render_template(
        "passkey.html",
        person=flask.g.person,
        site=settings_here().site,
        mine=[(print_of_blob(it.blob), it.first) for it in mine],
        purpose=ENROLS,
        **ceremony(mine),
    )


def keep_passkey() -> str:
    """Keeps a passkey that somebody made, with its signature over the word that they were told, for
    root to add; its fingerprint."""
    settings, form, person = settings_here(), flask.request.form, flask.g.person
    check_origin(settings.page.origin)
    word, assertion = form.get("word", ""), form.get("assertion", "")
    if not WORD.fullmatch(word):
        raise BadAsk("the word has 16 digits and letters from a to f")
    blob = made_passkey(decoded(form.get("attested", ""))).blob()
    page, key = settings.page, base64.b64encode(blob).decode("ascii")
    made = Signer(person, PASSKEY, key, "", "", False, page.origin, page.is_verified)
    Assertion.of(assertion).check(made.passkey(), ENROLS, enrolling(settings.site, person, word))
    path = os.path.join(page.made, person)
    with open(f"{path}.new", "w", encoding="ascii") as file:
        file.write(f"{made.public} {PASSKEY}:{assertion}\n")
    os.replace(f"{path}.new", path)
    log.info("%s made a passkey: %s", person, print_of_blob(blob))
    return print_of_blob(blob)


def decoded(text: str) -> bytes:
    try:
        return base64.urlsafe_b64decode(text + "=" * (-len(text) % 4))
    except ValueError:
        raise BadAsk("this is no new passkey") from None


def serve(settings: Settings, told_ready: Callable[[], None]) -> int:
    """Serves the page until SIGTERM, at a socket that its own group alone may open."""
    if not settings.page.origin or not settings.page.relays:
        raise BadSettings("the page needs origin and relay_pages in door.toml")
    app, place = create_app(settings), settings.page.listen
    before = os.umask(0o117)
    server = waitress.create_server(app, unix_socket=place, unix_socket_perms="660", **LIMITS)
    os.umask(before)
    print(f"listening unix:{place}", flush=True)
    told_ready()
    server.run()
    return 0
