"""The page: one page in the browser, behind a front that knows who is calling.

Everything is made here as HTML; there is no script. What is confirmed is what is sent: a
confirmation's token holds the words themselves, signed for the person whom they were shown to.
"""

import hmac
import logging
import os
import re
import socket
import sqlite3
from contextlib import ExitStack
from datetime import datetime, tzinfo
from functools import lru_cache
from typing import Any

import flask
import waitress
from itsdangerous import URLSafeTimedSerializer
from markupsafe import Markup
from waitress.parser import HTTPRequestParser
from werkzeug.exceptions import HTTPException

from steelnewt_client.desk import Silent
from steelnewt_client.letters import plain
from steelnewt_client.messages import BadWord
from steelnewt_client.moments import of_stamp
from steelnewt_client.names import PERSON
from steelnewt_client.told import Grant
from steelnewt_relay import heads, telling
from steelnewt_relay.asking import FIELDS, show_same, show_usual, show_wish
from steelnewt_relay.config import BadConfig, Config
from steelnewt_relay.deciding import kinds_waiting, notices, own_kinds, send, show_let
from steelnewt_relay.deciding import show_request, show_verdict
from steelnewt_relay.handing import take_back
from steelnewt_relay.moments import BadTime, shown
from steelnewt_relay.outbox import Kept, OutOfNumbers
from steelnewt_relay.roster import BadRoster, Roster
from steelnewt_relay.shares import Crowded, Places
from steelnewt_relay.sharing import Shared
from steelnewt_relay.standing import Board, Row, Standing
from steelnewt_relay.summary import by_reach, few
from steelnewt_relay.timeline import timeline
from steelnewt_relay.visit import Cards, Seen, Server, Visit
from steelnewt_relay.ways import by_page
from steelnewt_relay.words import BadWords, checked_if, unescaped

log = logging.getLogger("desk-relay")
PERSON_HEADER = "X-Desk-Person"
FRONT_HEADER = "X-Desk-Front"
# A Host that an address can be made of, as a redirection does. A request may have none.
HOST = re.compile(r"([A-Za-z0-9._-]*|\[[0-9A-Fa-f:.]+\])(:[0-9]{0,5})?")
# The one form that the page's forms have. (Of others Werkzeug takes a codec's name from whoever
# sends them, and fails where there is none.)
FORM = re.compile(r"(application/x-www-form-urlencoded( *; *charset=utf-8)?)?", re.IGNORECASE)
NO_HOST = "The request names no host that a page can have.\n"
NOBODY = (
    "The front does not say who you are: it takes a person's certificate, or a sign-on by a name"
    " such as ann."
)
NOT_LISTED = "Nobody here is called {}: ask whoever keeps the list of people."
EXPOSED = (
    "EVERY ACCOUNT OF THIS MACHINE REACHES THE PAGE HERE, and while it is stopped any of them can"
    " take its place, and is given the front's secret; listen at unix:/run/desk-relay/page.sock"
)
# So many questions of one person are answered at a time; and so many seconds there are at least from
# one question about what is past to the next.
MOST_OF_ONE, PAST_PAUSE = 16, 0.2
# Whoever connects and says nothing is dropped after a while, and keeps nobody out before.
LIMITS: dict[str, Any] = {
    # (most of them wait for the question to the desk that they share)
    "threads": 64,
    "connection_limit": 800,
    "channel_timeout": 20,
    "cleanup_interval": 5,
    # (select knows no descriptor past 1,023)
    "asyncore_use_poll": True,
    "ident": None,
}
POLICY = (
    "default-src 'none'; style-src 'self'; img-src 'self'; form-action {}; base-uri 'none'; "
    "frame-ancestors 'none'"
)
HEADERS = {
    "X-Content-Type-Options": "nosniff",
    "Cache-Control": "no-store",
    "Cross-Origin-Opener-Policy": "same-origin",
}


def headers_of(confirm: str) -> dict[str, str]:
    """The headers of each answer. A form may lead to the door's page, where people sign; that is
    told from which origin it comes."""
    policy = POLICY.format(f"'self' {confirm}".rstrip())
    referrer = "strict-origin" if confirm else "same-origin"
    return HEADERS | {"Content-Security-Policy": policy, "Referrer-Policy": referrer}


def is_from_door(confirm: str) -> bool:
    """Whether a form brings back what was signed on the door's page."""
    is_signed = flask.request.endpoint == "take_back"
    return bool(confirm) and is_signed and flask.request.headers.get("Origin") == confirm


def caller(secret: str, confirm: str) -> tuple[str, str]:
    """Who is calling and by which key, by the front's word; nobody else has the front's secret. (A
    front sets one header anew, so what it says of the key stands there too, behind the name and a
    mark that no name has: where there is no name, no other word is taken for it.)"""
    given = flask.request.headers.get(FRONT_HEADER, "")
    if not hmac.compare_digest(given.encode("utf-8"), secret.encode("utf-8")):
        flask.abort(403, "This page is reached through its front alone.")
    person, _, key = flask.request.headers.get(PERSON_HEADER, "").partition(";")
    if not re.fullmatch(PERSON, person):
        flask.abort(403, NOBODY)
    if flask.request.headers.get("Sec-Fetch-Site", "none") not in ("none", "same-origin"):
        if flask.request.method != "GET" and not is_from_door(confirm):
            flask.abort(403, "The form came from another site.")
    return person, by_page(key.strip())


def create_app(config: Config) -> flask.Flask:
    app = flask.Flask("steelnewt_relay", root_path=__file__.rpartition("/")[0])
    app.jinja_env.trim_blocks = app.jinja_env.lstrip_blocks = True
    app.config["MAX_CONTENT_LENGTH"] = 65536
    secret, signing_key = config.page_keys()
    tokens = URLSafeTimedSerializer(signing_key, salt="desk-relay page")
    server = Server(config, tokens, Shared(), Shared(PAST_PAUSE), Seen())
    places, headers = Places(MOST_OF_ONE), headers_of(config.confirm)

    @app.before_request
    def begin() -> flask.Response | None:
        if not HOST.fullmatch(flask.request.headers.get("Host", "")):
            # (no page: its links would need a host)
            return flask.Response(NO_HOST, 400, mimetype="text/plain")
        person, way = caller(secret, config.confirm)
        if not FORM.fullmatch(flask.request.headers.get("Content-Type", "")):
            flask.abort(415, "The form is not from this page. Begin again.")
        if flask.request.endpoint != "static":
            flask.g.held = held = ExitStack()
            held.enter_context(places.place(person))
            flask.g.visit = visit = Visit(server, person)
            held.callback(visit.outbox.close)
            visit.outbox.way = way
            if person not in visit.roster.people:
                # (whoever can sign on at the site sees nothing here for that alone)
                flask.abort(403, NOT_LISTED.format(person))
        return None

    @app.teardown_request
    def end(_: BaseException | None) -> None:
        if "held" in flask.g:
            flask.g.held.close()

    @app.after_request
    def guard(reply: flask.Response) -> flask.Response:
        reply.headers.update(headers)
        return reply

    ours = (OutOfNumbers, BadRoster, Silent, sqlite3.Error, Crowded)
    for kind in (BadWord, BadWords, BadTime, *ours):
        app.register_error_handler(kind, complain)
    app.register_error_handler(HTTPException, complain)
    app.add_url_rule("/", "home", home)
    app.add_url_rule("/ask", "ask", show_wish, methods=["POST"])
    app.add_url_rule("/again", "again", show_same)
    app.add_url_rule("/usual", "usual", show_usual)
    app.add_url_rule("/history", "history", show_history)
    app.add_url_rule("/r/<by>/<int:no>", "request_page", show_request)
    app.add_url_rule("/verdict", "verdict", show_verdict)
    app.add_url_rule("/let", "let", show_let)
    app.add_url_rule("/send", "send", send, methods=["POST"])
    if config.confirm:
        app.add_url_rule("/signed", "take_back", take_back, methods=["POST"])
    app.jinja_env.globals.update(
        telling=telling, heads=heads, shown=shown, of_stamp=of_stamp,
        by_reach=by_reach, unescaped=unescaped, few=few, fields=FIELDS, own_kinds=own_kinds,
        kinds_waiting=kinds_waiting, plain=plain,
    )  # fmt: skip
    app.jinja_env.globals.update(made_parts(app))
    return app


def made_parts(app: flask.Flask) -> dict[str, Any]:
    """The parts of a page that are shown again as they were made, as long as nothing changed."""
    parts: Any = app.jinja_env.get_template("parts.html").module

    @lru_cache(maxsize=4096)
    def made(standing: Standing, roster: Roster, day: datetime, *words: Any) -> Markup:
        return Markup(parts.card(standing, roster, day, *words))

    def card(standing: Standing, visit: Visit, kinds: Any = ()) -> Markup:
        """A request's card, with buttons (`again` is whose it is). Midnight stands for the
        moment, so that a card is made once a day, but for the minutes that are left."""
        day = visit.now.replace(hour=0, minute=0, second=0)
        left, is_urgent = heads.time_left(standing, visit.now), heads.is_urgent(standing, visit.now)
        return made(standing, visit.roster, day, visit.zone, left, is_urgent, kinds)

    @lru_cache(maxsize=4096)
    def made_row(grant: Grant, kept: Kept, zone: tzinfo, may_revoke: bool) -> Markup:
        return Markup(parts.row(grant, kept.request, kept.id < 0, zone, may_revoke))

    def row(each: Row, visit: Visit) -> Markup:
        """A grant's row. It has a button for those who may revoke it, and is the same else."""
        grant, kept = each
        about = visit.person, grant.who, grant.ceiling, visit.now
        return made_row(grant, kept, visit.zone, visit.roster.may_revoke(*about))

    @lru_cache(maxsize=4)
    def drawn(board: Board, zone: tzinfo) -> Markup:
        """The picture of what is in force, the same for all who share a board."""
        picture = timeline(board.rows, board.at, zone)
        return Markup(parts.drawn(picture) if picture else "")

    return {"card": card, "row": row, "drawn": drawn}


def complain(fault: Exception) -> tuple[str, int]:
    """What a person reads where something is wrong with what they sent."""
    is_ours = isinstance(fault, (Silent, BadRoster, sqlite3.Error))
    status = getattr(fault, "code", None) or (503 if is_ours else 400)
    text = getattr(fault, "description", None) or str(fault)
    visit: Visit | None = flask.g.get("visit")
    # (whom the roster does not have reads the same on each page)
    person = visit.person if visit and visit.person in visit.roster.people else None
    is_sent = flask.request.method == "POST"
    return flask.render_template("wrong.html", text=text, person=person, is_sent=is_sent), status


def home() -> str:
    """What waits for me, my requests, what is in force, and the findings for an auditor."""
    visit: Visit = flask.g.visit
    is_all = "all" in flask.request.args
    count, asked = visit.own(is_all)
    knowledge, board = visit.shared_knowledge(asked, is_all)
    review, trouble = None, knowledge.trouble
    if visit.is_auditor() and not trouble:
        try:
            review = visit.desk.review(visit.now)
        except Silent as why:
            trouble = str(why)
    left = knowledge.waiting(visit.person)
    objected = [it for it in board.ended if it.request.by != visit.person]
    return flask.render_template(
        "home.html",
        visit=visit,
        person=visit.person,
        notices=notices(visit, knowledge),
        mine=visit.mine(knowledge, count, asked, is_all),
        waiting=Cards.of("waiting", heads.urgent_first(left, visit.now)),
        objected=Cards.of("objected", objected),
        ticked=flask.request.args.get("ticked", ""),
        board=board,
        ceilings=visit.roster.may_ask(visit.person, visit.now),
        usual=heads.usual(visit.own_requests(), visit.last_own(is_all)),
        review=review,
        trouble=trouble,
        token=visit.token("ask"),
    )


def show_history() -> str:
    """What came through this relay, whoever asked."""
    visit, given = flask.g.visit, flask.request.args
    who, host = (given.get(name, "").strip() for name in ("who", "on"))
    checked_if("person", who or None), checked_if("host", host or None)
    found = visit.past(who, host, "all" in given)
    return flask.render_template(
        "history.html", visit=visit, person=visit.person, found=found, who=who, on=host
    )


def serve(config: Config) -> None:
    """Serves the page until SIGTERM, at a socket that only its group may open, or on loopback."""
    # (waitress logs the path of a request whose peer has gone, and one without a head has none)
    HTTPRequestParser.path = ""  # type: ignore[attr-defined]
    app, place = create_app(config), config.page_place()
    if isinstance(place, tuple):
        log.warning("%s:%d: %s", *place, EXPOSED)
        server = waitress.create_server(app, host=place[0], port=place[1], **LIMITS)
    else:
        check_place(place)
        # (it is its group's from the beginning on)
        before = os.umask(0o117)
        server = waitress.create_server(app, unix_socket=place, unix_socket_perms="660", **LIMITS)
        os.umask(before)
    log.info("the page is at %s", config.page["listen"])
    server.run()


def check_place(path: str) -> None:
    """Refuses a socket whose place others could take while the page is stopped, or where another
    page answers."""
    folder = os.path.dirname(path)
    try:
        found = os.stat(folder)
    except OSError as fault:
        raise BadConfig(f"[page] listen: {fault}") from None
    if found.st_mode & 0o022 or found.st_uid not in (0, os.geteuid()):
        raise BadConfig(f"[page] listen: others may write in {folder}, and take the page's place")
    with socket.socket(socket.AF_UNIX) as peer:
        if peer.connect_ex(path) == 0:
            raise BadConfig(f"[page] listen: a page answers at {path} already")
