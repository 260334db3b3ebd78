"""The relay by ssh. sshd says who is calling; the person's words are the command's."""

import sqlite3
import sys
from collections.abc import Callable
from datetime import datetime
from typing import NoReturn

from steelnewt_client.desk import Silent
from steelnewt_client.messages import VERDICTS, BadWord
from steelnewt_client.moments import now
from steelnewt_relay import listing, sending, signing, staying, verdicts
from steelnewt_relay.call import DONE, KEPT, NOT_SENT, REFUSED, Call, Late, admit, is_at_terminal
from steelnewt_relay.caller import Caller, Gone
from steelnewt_relay.completing import complete
from steelnewt_relay.config import Config
from steelnewt_relay.moments import BadTime, day_of
from steelnewt_relay.outbox import OutOfNumbers
from steelnewt_relay.roster import BadRoster
from steelnewt_relay.typed import BadWords
from steelnewt_relay.words import USAGE, parse

LOOK = "'mine' shows what was sent before"


def give_help(call: Call) -> int:
    call.say(f"You are {call.person}.\n{USAGE}")
    return DONE


def set_zone(call: Call) -> int:
    """The zone in which this person reads and writes times; `none` is the desk's own."""
    words = call.said.words
    if len(words) != 2 or words[0] != "zone":
        raise BadWords("write set zone Europe/Berlin, or set zone none")
    call.outbox.own.set_zone(call.person, "" if words[1] == "none" else words[1])
    call.say(f"Your zone: {call.outbox.own.zone(call.person, call.config.zone)}.")
    call.give_data({"zone": str(call.outbox.own.zone(call.person, call.config.zone))})
    return DONE


def away(call: Call) -> int:
    """The days on which nobody calls this person. They may approve as before."""
    words, own = call.said.words, call.outbox.own
    if words == ["none"]:
        own.set_away(call.person, "", "")
    elif words:
        if len(words) > 2:
            raise BadWords("write away UNTIL, away FROM UNTIL, or away none")
        first, last = (day(call, it) for it in (words if len(words) == 2 else ["today", *words]))
        if last < first:
            raise BadWord("that absence would end before it begins")
        own.set_away(call.person, f"{first:%Y%m%d}", f"{last:%Y%m%d}")
    first_day, last_day = own.away(call.person)
    days = [f"{it[:4]}-{it[4:6]}-{it[6:]}" for it in (first_day, last_day)]
    said = f"You are away from {' until '.join(days)}" if first_day else "You are not away"
    call.say(f"{said}. What you may approve stays as it is.")
    call.give_data({"from": first_day or None, "until": last_day or None})
    return DONE


def day(call: Call, word: str) -> datetime:
    return day_of(word, now().astimezone(call.zone))


ANSWERS: dict[str, Callable[[Call], int]] = {
    "ask": sending.ask,
    "saved": sending.saved,
    "again": sending.again,
    "lead": sending.lead,
    "save": sending.save,
    "wait": staying.wait,
    "withdraw": verdicts.withdraw,
    "let": verdicts.let,
    "ceilings": listing.ceilings,
    "show": listing.show_one,
    "history": listing.history,
    "approve": verdicts.give_verdicts,
    "refuse": verdicts.give_verdicts,
    "revoke": verdicts.give_verdicts,
    "mine": listing.mine,
    "waiting": listing.waiting,
    "live": listing.live,
    "review": listing.review,
    "overview": listing.overview,
    "help": give_help,
    "set": set_zone,
    "away": away,
    "complete": complete,
    "prepare": signing.prepare,
    "send": signing.send_signed,
}
# Words that a relay which takes signed messages alone does for nobody.
UNSIGNED = ("ask", "saved", "again", "lead", "withdraw", *VERDICTS)


def too_late(*_: object) -> NoReturn:
    raise Late


def answer(config: Config, caller: Caller, line: str) -> int:
    """Answers a person's words. Whatever they say, they speak for this person alone."""
    try:
        admit(config, caller)
        said = parse(line or ("overview" if is_at_terminal() else "help"))
        if said.command in UNSIGNED and config.is_signed:
            raise BadWords(signing.SIGN)
        if said.command in ("prepare", "send") and not config.signing:
            raise BadWords("this desk takes no signatures: its settings have no [signing]")
        call = Call(config, caller, said)
        try:
            return ANSWERS[said.command](call)
        finally:
            call.end()
    except Gone as fault:
        return complain(f"Nothing was sent: {fault}. Ask the operator.", REFUSED)
    except sqlite3.Error as fault:
        why = f"what is kept here fails: {fault}"
        return complain(f"Nothing was sent: {why}. Tell the operator.", REFUSED)
    except BadTime as fault:
        return complain(f"Nothing was sent: {fault}.", REFUSED)
    except (BadWords, BadWord, BadRoster, OutOfNumbers) as fault:
        return complain(f"Nothing was sent: {fault}.\nWrite 'help' for the commands.", REFUSED)
    except KeyboardInterrupt:
        return complain(f"\nNothing more was sent: {LOOK}.", NOT_SENT)
    except Late:
        return complain(f"\nThis took too long, and nothing more was sent: {LOOK}.", NOT_SENT)
    except Silent as why:
        return complain(f"The desk does not answer: {why}. Ask again in a while.", KEPT)


def complain(text: str, status: int) -> int:
    print(text, file=sys.stderr)
    return status
