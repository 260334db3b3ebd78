#!/usr/bin/env python3
"""Makes the manual pages and the completions of both shells, in the folder that is named.

desk(1), the pages of some tools and the completions are made of packaging/commands.toml,
desk-relay.toml(5) of relays/relay.example.toml, the other pages of docs/: no fact stands twice.
PREFIX in the environment is where the program is installed (/usr/local).
"""

import os
import re
import sys
import tomllib

import completions
import markdown_to_mdoc
import repository
from markdown_to_mdoc import escaped, guarded, sentences

DOC = os.path.join(os.environ.get("PREFIX") or "/usr/local", "share", "doc", "steelnewt")
DATE = "January 5, 2026"
# each page, its section, the document that it is made of, and what it is about
DOCUMENTS = [
    ("desk-roster", 5, "ROSTER.md", "who may ask a desk for what, and who approves it"),
    ("desk-policy", 5, "SUDOERS.md", "the part of sudoers that a desk reads"),
    ("desk-message", 5, "MESSAGES.md", "requests to a desk, and verdicts on them"),
    ("desk-store", 5, "STORE.md", "the database in which a desk keeps its messages"),
    ("desk-codes", 7, "CODES.md", "what a desk says when it refuses, and what to do"),
    ("desk-lint", 1, "LINT.md", "look through rosters, bases and messages"),
    ("desk-import", 1, "IMPORT.md", "make a base policy of a sudoers file"),
    ("desk-host", 8, "HOSTS.md", "what a host does with its file from a desk"),
    ("desk-relay", 1, "RELAYS.md", "people ask and approve at a desk"),
    ("desk-audit", 1, "AUDITING.md", "tell what became of each request that a desk holds"),
    ("desk-used", 1, "USED.md", "tell which grants of a desk were used"),
    ("desk-evidence", 1, "EVIDENCE.md", "put together what an audit rests on"),
    ("desk-change-roster", 1, "CHANGING.md", "change the roster of a running desk"),
    ("desk-roster", 1, "PEOPLE.md", "bring the people of a roster up to date"),
    ("desk-door", 8, "SIGNING.md", "each message to a desk with its author's signature"),
    ("mydesk", 1, "SIGNING.md", "ask and approve at a desk with your own signature"),
    ("desk-broker", 7, "SEVERAL.md", "several desks behind a message broker"),
]


def synopsis(command: dict) -> list[str]:
    """A command's line, as macros."""
    words = []
    for word in command["words"]:
        words.append(f".Op Ar {word[1:-4]} ..." if word.startswith("[") else f".Ar {word}")
    options = [f".Op Fl \\-{name[2:]} Ar {value}" for name, value in command.get("options", [])]
    return [".Nm desk", f".Cm {command['name']}", *words, *options]


def told(command: dict) -> list[str]:
    """A command's part of the page."""
    words = " ".join(word.strip("[]").replace("]...", " ...") for word in command["words"])
    lines = [f".It Cm {command['name']} {words}"]
    lines += sentences(command["says"], DOC)
    lines += [".Pp", "Exit status:"]
    ends = [f"{status} where {said}" for status, said in command["exits"].items()]
    return [*lines, *sentences("; ".join(ends) + ".", DOC)]


def examples(commands: list[dict]) -> list[str]:
    lines = []
    for command in commands:
        for example in command.get("examples", []):
            shown = [f"$ {example['run']}", *example["prints"].strip("\n").split("\n")]
            lines += [
                ".Bd -literal -offset indent",
                *(guarded(escaped(line)) for line in shown),
                ".Ed",
            ]
    return lines


FRAME = """\
.Dd {date}
.Dt DESK 1
.Os
.Sh NAME
.Nm desk
.Nd privileged access desk
.Sh SYNOPSIS
{synopsis}
.Sh DESCRIPTION
Administrators ask for root, or another target user, on named hosts for a
while, and others approve.
.Nm
writes each host's sudoers file and a report for auditors.
Its decisions are proved, and it authenticates nobody: a relay vouches for its
authors.
.Pp
A desk is made of a roster
.Pq Xr desk-roster 5 ,
a base policy
.Pq Xr desk-policy 5
and messages
.Pq Xr desk-message 5 ,
which are kept in a store
.Pq Xr desk-store 5 .
A moment is yyyymmddhhmmssZ, in UTC.
.Bl -tag -width Ds
{commands}
.El
.Pp
.Nm
.Fl \\-help
prints the commands, and
.Nm
.Ar COMMAND
.Fl \\-help
the words and options of one.
.Sh FILES
.Bl -tag -width Ds -compact
.It Pa /etc/desk/roster.toml
the roster of the desk that
.Pa desk.service
serves
.It Pa /etc/desk/base.sudo
its base policy
.It Pa /etc/desk/serve.conf
where it finds these, where it listens, and how often a commit syncs
.It Pa /run/desk/desk.sock
its socket, which the group desk-front may open
.It Pa /var/lib/desk/desk.db
its store
.El
.Sh EXIT STATUS
.Bl -tag -width Ds -compact
.It 0
It is done, and what was asked for is allowed.
.It 1
It is done: a run is denied, or what was looked for is found.
.It 2
It is refused, or a line of the input is.
The standard error has a code
.Pq Xr desk-codes 7 ;
nothing stands on the output unless the command says so.
.El
.Sh EXAMPLES
In a folder with the files of
.Pa {doc}/examples :
{examples}
.Sh SEE ALSO
.Xr desk-audit 1 ,
.Xr desk-cut 1 ,
.Xr desk-evidence 1 ,
.Xr desk-import 1 ,
.Xr desk-lint 1 ,
.Xr desk-standing 1 ,
.Xr desk-used 1 ,
.Xr desk-message 5 ,
.Xr desk-policy 5 ,
.Xr desk-roster 5 ,
.Xr desk-store 5 ,
.Xr sudoers 5 ,
.Xr desk-codes 7 ,
.Xr sudo 8 ,
.Xr visudo 8
"""


SETTINGS = """\
.Dd {date}
.Dt DESK-RELAY.TOML 5
.Os
.Sh NAME
.Nm desk-relay.toml
.Nd the settings of a desk's relay
.Sh DESCRIPTION
The file
.Pa /etc/desk/relay.toml ,
or what
.Fl \\-config
names, in TOML.
A setting whose line begins with # here is not given in the file that the
package installs.
{settings}
.Sh SEE ALSO
.Xr desk-relay 1 ,
.Xr desk-roster 5
"""


TOOL = """\
.Dd {date}
.Dt {title} 1
.Os
.Sh NAME
.Nm {name}
.Nd {about}
.Sh SYNOPSIS
.Nm {name}
{synopsis}
.Sh DESCRIPTION
{says}
.Sh EXIT STATUS
{exits}
.Sh SEE ALSO
.Xr desk 1 ,
.Xr desk-broker 7
"""


def tool_page(tool: dict) -> str:
    """The page of a program whose entry says all of it."""
    ends = [f"{status} where {said}" for status, said in tool["exits"].items()]
    return TOOL.format(
        date=DATE,
        title=tool["name"].upper(),
        name=tool["name"],
        about=tool["about"],
        synopsis="\n".join(guarded(escaped(word)) for word in tool["synopsis"] or ["[--help]"]),
        says="\n".join(sentences(tool["says"], DOC)),
        exits="\n".join(sentences("; ".join(ends) + ".", DOC)),
    )


def settings_page(example: str) -> str:
    """The example's comments as paragraphs, and its settings as they stand."""
    lines = []
    for block in example.strip().split("\n\n")[1:]:
        rows = block.split("\n")
        # (what says something stands before the first setting, which may be commented out)
        first = next(at for at, row in enumerate(rows) if re.match(r"(# )?(\[|\w+ =)", row))
        said = " ".join(row.removeprefix("# ") for row in rows[:first])
        lines += [".Pp", *sentences(said.strip("()"), DOC), ".Bd -literal -offset indent"]
        lines += [*(guarded(escaped(row)) for row in rows[first:]), ".Ed"]
    return SETTINGS.format(date=DATE, settings="\n".join(lines))


def desk_page(commands: list[dict]) -> str:
    parts = {
        "date": DATE,
        "doc": DOC,
        "synopsis": "\n".join(line for command in commands for line in synopsis(command)),
        "commands": "\n".join(line for command in commands for line in told(command)),
        "examples": "\n".join(examples(commands)),
    }
    return FRAME.format(**parts)


def main() -> None:
    folder = sys.argv[1]
    table = tomllib.loads(repository.read("packaging", "commands.toml"))
    made = {"desk.1": desk_page(table["command"])}
    for name, section, source, about in DOCUMENTS:
        text = markdown_to_mdoc.page(name, section, about, repository.read("docs", source), DOC)
        made[f"{name}.{section}"] = text.replace("$Mdocdate$", DATE)
    made["desk.bash"] = completions.bash(table["command"], table["files"])
    made["_desk"] = completions.zsh(table["command"], table["files"])
    for tool in table["tool"]:
        made[f"{tool['name']}.bash"] = completions.tool_bash(tool)
        made[f"_{tool['name']}"] = completions.tool_zsh(tool)
        if "says" in tool:
            made[f"{tool['name']}.1"] = tool_page(tool)
    made["desk-relay.toml.5"] = settings_page(repository.read("relays", "relay.example.toml"))
    os.makedirs(folder, exist_ok=True)
    for name, text in made.items():
        with open(os.path.join(folder, name), "w", encoding="utf-8") as file:
            file.write(text)


if __name__ == "__main__":
    main()
