"""The program `desk-signer`: whose key signs whose messages, from when until when."""

import argparse
import hashlib
import json
import os
import re
import sys
from collections.abc import Callable


from steelnewt_client.moments import FORM as MOMENT
from steelnewt_client.moments import of_stamp, seconds, stamp_of
from steelnewt_client.names import PERSON
from steelnewt_client.signed import DIGEST
from steelnewt_door import enrolling
from steelnewt_door.changes import AGREED, Two, lines_of, said_of, yeses_in
from steelnewt_door.changing import Changing, fingerprint, given_in, plainly, public_in, text_in, written
from steelnewt_door.following import check_new, new_versions, take, take_agreed
from steelnewt_door.judge import print_of_blob
from steelnewt_door.lost import signed_with
from steelnewt_door.settings import CONFIG, BadSettings, Settings, read_settings
from steelnewt_door.signers import CHANGE, BadSigners, Signer, Signers, ended

DONE, NOT_CHANGED, REFUSED, WAITS = 0, 1, 2, 3
MOST_KRL, MOST_ROSTER, DAY = 1 << 20, 8 << 20, 86_400


def parser() -> argparse.ArgumentParser:
    found = argparse.ArgumentParser(
        "desk-signer",
        description="Whose key signs whose messages, from when until when.",
        epilog="Exit status: 0 done, 1 nothing was changed, 2 it is refused, 3 it waits for the yes"
        " of people.",
    )
    found.add_argument("--config", default=CONFIG, help=f"the door's settings (default {CONFIG})")
    found.add_argument("--why", default="", help="kept beside the change, for auditors")
    found.add_argument("--ticket", default="", help="likewise, under which ticket")
    said = "likewise, who approved it; may be given again"
    found.add_argument("--approved-by", action="append", default=[], metavar="NAME", help=said)
    found.add_argument("--yes", action="store_true", help="ask nobody here")
    add_jobs(found.add_subparsers(dest="job", metavar="JOB", required=True))
    return found


def add_jobs(jobs: "argparse._SubParsersAction[argparse.ArgumentParser]") -> None:
    """What it does; first what is done with keys, and then with what people said yes to."""
    said = "print a word that a person signs, who is here, by `mydesk enrol WORD` or on the page"
    jobs.add_parser("enrol", help=said).add_argument("name", metavar="NAME")
    adding = jobs.add_parser("add", help="a person signs with the key that they enrol")
    rotating = jobs.add_parser("rotate", help="the same; their other keys end some days later")
    rotating.add_argument("--days", type=int, default=7, help="how many (7)")
    for it in (adding, rotating):
        it.add_argument("name", metavar="NAME")
        said = "what mydesk or the page wrote, - is the standard input"
        it.add_argument("file", metavar="FILE", help=said)
        said = "FILE is a public key alone, whose owner is not here: compare its fingerprint"
        it.add_argument("--unproved", action="store_true", help=said)
    authority = jobs.add_parser("add-authority", help="who has a certificate of this key signs")
    authority.add_argument("file", metavar="FILE")
    end = jobs.add_parser("end", help="a key counts until a moment, and then no more")
    end.add_argument("key", metavar="FINGERPRINT")
    end.add_argument("--at", default="", metavar="MOMENT", help="the last one (this one)")
    said = "a person's keys, or one, never count again; says what they signed"
    lost = jobs.add_parser("lost", help=said)
    lost.add_argument("name", metavar="NAME")
    lost.add_argument("key", metavar="FINGERPRINT", nargs="?")
    said = "a public key counts never again, also in a certificate"
    jobs.add_parser("revoke", help=said).add_argument("file", metavar="FILE")
    krl = jobs.add_parser("krl", help="what your own list revokes counts no more (ssh-keygen -k)")
    krl.add_argument("file", metavar="FILE")
    said = "take over what was changed where another door of the site is"
    taking = jobs.add_parser("take", help=said)
    said = "a copy of its /etc/desk/signers, or what `desk-door bring` has of it"
    taking.add_argument("folder", metavar="DIR", help=said)
    listing = jobs.add_parser("list", help="print who signs with which key")
    listing.add_argument("--at", default="", metavar="MOMENT", help="as it was at a moment")
    jobs.add_parser("history", help="print each change")
    add_agreeing(jobs)


def add_agreeing(jobs: "argparse._SubParsersAction[argparse.ArgumentParser]") -> None:
    put = jobs.add_parser("put", help="make the draft hold, with the yes of people")
    put.add_argument("files", metavar="FILE", nargs="+", help="what `mydesk agree` wrote")
    agree = jobs.add_parser("agree", help="a roster or a base counts, with the yes of people")
    agree.add_argument("what", choices=("roster", "base"))
    said = "the roster's file, or the digest that /v1/count names"
    agree.add_argument("which", metavar="FILE|DIGEST", help=said)
    agree.add_argument("files", metavar="YES", nargs="*", help="what `mydesk agree` wrote")


def a_second_before(changing: Changing) -> str:
    """The last moment at which a key counted that counts no more."""
    return stamp_of(of_stamp(changing.next_moment()).timestamp() - 1)


class Job:
    """One call."""

    def __init__(self, said: argparse.Namespace, settings: Settings) -> None:
        self.said, self.settings = said, settings
        self.changing = Changing(settings.signers, settings.two())

    def change(
        self, signers: list[Signer], revoked: list[str], what: str, krl: bytes | None = None
    ) -> int:
        """Shows what changes, and makes it hold, or says who has to say yes."""
        by = os.environ.get("SUDO_USER") or str(os.getuid())
        told = {"by": by, "change": what, "why": self.said.why}
        more = {"ticket": self.said.ticket, "approved-by": self.said.approved_by}
        told |= {word: it for word, it in more.items() if it}
        change = json.dumps(told, sort_keys=True)
        draft = self.changing.write_draft(signers, revoked, change, krl)
        print("\n".join(lines_of(self.changing.now(), draft)))
        if needs := self.changing.needs():
            print(f"{needs} of those who sign have to say yes. Send them {draft.path('to-sign')}")
            print("for `mydesk agree`, and then: desk-signer put FILE ..")
            return WAITS
        if not self.is_meant():
            return NOT_CHANGED
        print(f"the signers of {self.changing.put()} hold")
        return DONE

    def enrol(self) -> int:
        name = checked(self.said.name)
        print(enrolling.nonce_for(self.settings.signers, name))
        page = self.settings.page
        more = f", or makes a passkey at {page.origin}/passkey" if page.origin else ""
        print(f"(within 15 minutes {name} writes: mydesk enrol WORD{more})", file=sys.stderr)
        return DONE

    def new_signer(self, name: str, at: str) -> Signer:
        """The signer of a key that nobody has, or had."""
        given, page = text_in(self.said.file), self.settings.page
        if self.said.unproved:
            kind, key = plainly(public_in(self.said.file, given)).split(" ")
            new = Signer(name, kind, key, at)
        else:
            where = self.settings.signers, self.settings.site, at, page.origin, page.is_verified
            new = enrolling.enrolled_in(given, name, enrolling.Enrolling(*where))
        self.check_new(new)
        return new

    def check_new(self, new: Signer) -> None:
        signers, revoked = self.changing.held()
        mark = print_of_blob(new.blob) if new.is_passkey else fingerprint(new.public)
        if new.public in revoked:
            raise BadSigners(f"{mark} was lost: it never counts again")
        same = [it.name for it in signers if print_of_blob(it.blob) == mark or is_same(it, new)]
        if same:
            raise BadSigners(f"{mark} is {same[0]}'s, or was: a key is one person's, once")

    def add(self) -> int:
        name = checked(self.said.name)
        signers, revoked = self.changing.held()
        at = self.changing.next_moment()
        new, what = self.new_signer(name, at), "add"
        if self.said.job == "rotate":
            what, last = "rotate", stamp_of(seconds(at) + self.said.days * DAY)
            signers = ended(signers, [it for it in signers if it.name == name], last)
        proof = " unproved" if self.said.unproved else ""
        status = self.change([*signers, new], revoked, f"{what} {name}{proof}")
        enrolling.done(self.settings.signers, name)
        return status

    def add_authority(self) -> int:
        signers, revoked = self.changing.held()
        public = plainly(public_in(self.said.file, text_in(self.said.file)))
        kind, key = public.split(" ")
        new = Signer("*", kind, key, self.changing.next_moment(), is_authority=True)
        self.check_new(new)
        return self.change([*signers, new], revoked, "add-authority")

    def end(self) -> int:
        last = moment(self.said.at) or self.changing.next_moment()
        signers, revoked = self.changing.held()
        gone = [it for it in signers if print_of_blob(it.blob) == self.said.key]
        if not gone:
            raise BadSigners(f"nobody has the key {self.said.key}")
        return self.change(ended(signers, gone, last), revoked, f"end {self.said.key} {last}")

    def lost(self) -> int:
        """Ends keys for ever, and says what they signed."""
        name, key = checked(self.said.name), self.said.key
        signers, revoked = self.changing.held()
        mine = {it: print_of_blob(it.blob) for it in signers if it.name == name}
        gone = [it for it, mark in mine.items() if key in (None, mark)]
        if not gone:
            raise BadSigners(f"{name} has no such key")
        new = [it.public for it in gone if it.public not in revoked]
        marks = sorted({mine[it] for it in gone})
        last = a_second_before(self.changing)
        what = f"lost {name} {' '.join(marks)}"
        status = DONE
        if new:
            status = self.change(ended(signers, gone, last), [*revoked, *new], what)
        for line in signed_with(self.settings.journal, set(marks)):
            print(line)
        return status

    def revoke(self) -> int:
        """Revokes a key that may stand in certificates, which no line here names."""
        signers, revoked = self.changing.held()
        public = plainly(public_in(self.said.file, text_in(self.said.file)))
        if public in revoked:
            raise BadSigners(f"{fingerprint(public)} is revoked already")
        mine = [it for it in signers if it.public == public]
        last = a_second_before(self.changing)
        what = f"revoke {fingerprint(public)}"
        return self.change(ended(signers, mine, last), [*revoked, public], what)

    def krl(self) -> int:
        signers, revoked = self.changing.held()
        given = given_in(self.said.file, MOST_KRL)
        if not given.startswith(b"SSHKRL\n\0"):
            raise BadSigners(f"{self.said.file} is no list of `ssh-keygen -k`")
        return self.change(signers, revoked, f"krl {hashlib.sha256(given).hexdigest()}", given)

    def take(self) -> int:
        """Has the versions of another folder hold here, which follow those that are here."""
        theirs = Signers(self.said.folder)
        found = new_versions(self.changing.signers, theirs)
        take_agreed(self.changing, theirs.folder)
        if not found:
            print("nothing is new there")
            return DONE
        settings = self.settings
        check_new(found, Two(settings.judge(), theirs, settings.rules.changes_by))
        print("\n".join(lines_of(self.changing.now(), found[-1])))
        if not self.is_meant():
            return NOT_CHANGED
        take(self.changing, found)
        print(f"the signers of {found[-1].at} hold")
        return DONE

    def is_meant(self) -> bool:
        if self.said.yes:
            return True
        print("Change the signers? [y/N] ", end="", flush=True)
        return sys.stdin.readline(100).strip().lower() in ("y", "yes")

    def yeses(self) -> str:
        given = [text_in(it).decode("ascii", "replace").strip() for it in self.said.files]
        text = "".join(f"{it}\n" for it in given)
        yeses_in(text)
        return text

    def put(self) -> int:
        if not os.path.isdir(self.changing.draft.folder):
            raise BadSigners("there is no draft of the signers")
        print(f"the signers of {self.changing.put(self.yeses())} hold")
        return DONE

    def agree(self) -> int:
        """A roster or a base counts from now on; without a yes, what people sign is printed."""
        what, which = self.said.what, self.said.which
        if not DIGEST.fullmatch(which):
            which = hashlib.sha256(given_in(which, MOST_ROSTER)).hexdigest()
        text, two = said_of(self.settings.site, what, which), self.settings.two()
        if not self.said.files:
            print(text, end="")
            return WAITS
        at, yeses = self.changing.next_moment(), self.yeses()
        found = two.who_said(self.changing.signers.now(), text, yeses, at)
        if len(found) < max(two.count, 2):
            raise BadSigners(f"{len(found)} people said yes to it, and {max(two.count, 2)} have to")
        os.makedirs(os.path.join(self.settings.signers, AGREED), 0o755, exist_ok=True)
        if not os.path.lexists(two.file_of(which)):
            written(two.file_of(which), f"{at}\n{yeses}".encode("ascii"))
        print(f"the {what} {which} counts")
        return DONE


def is_same(one: Signer, other: Signer) -> bool:
    """Whether two passkeys have the same name, or the same key."""
    if not (one.is_passkey and other.is_passkey):
        return False
    first, second = one.passkey(), other.passkey()
    return first.id == second.id or first.key == second.key


def checked(name: str) -> str:
    if not re.fullmatch(PERSON, name):
        raise BadSigners(f"{ascii(name)} is no person's name, such as ann")
    return name


def moment(text: str) -> str:
    if text and not MOMENT.fullmatch(text):
        raise BadSigners(f"{text!r} is no moment, such as 20260105090000Z")
    return text


def show(signers: Signers, at: str) -> int:
    version = signers.held_at(at) if at else signers.now()
    for it in version.signers():
        span = f"since {it.first}" + (f" until {it.last}" if it.last else "")
        mark = print_of_blob(it.blob)
        where = f" at {it.origin}{' verify-required' * it.is_verified}" * it.is_passkey
        print(f"{it.name} {mark} {it.kind} {span}{' authority' * it.is_authority}{where}")
    return DONE


def history(signers: Signers) -> int:
    for version in signers.versions():
        print(f"{version.at} {version.text(CHANGE).strip()}")
    return DONE


def followed(said: argparse.Namespace) -> int:
    settings = read_settings(said.config)
    if said.job == "list":
        return show(Signers(settings.signers), moment(said.at))
    if said.job == "history":
        return history(Signers(settings.signers))
    job = Job(said, settings)
    jobs: dict[str, Callable[[], int]] = {
        "enrol": job.enrol, "add": job.add, "rotate": job.add, "lost": job.lost, "end": job.end,
        "add-authority": job.add_authority, "revoke": job.revoke, "krl": job.krl, "put": job.put,
        "agree": job.agree, "take": job.take,
    }  # fmt: skip
    try:
        return jobs[said.job]()
    finally:
        job.changing.close()


def main(words: list[str] | None = None) -> int:
    said = parser().parse_args(words)
    try:
        return followed(said)
    except (BadSigners, BadSettings) as fault:
        print(f"desk-signer: {fault}", file=sys.stderr)
        return REFUSED
