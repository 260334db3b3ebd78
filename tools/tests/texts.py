"""Random rosters and messages: examples with a few of their parts changed. The same ones for the same seed."""

import copy
import json
import os
import random
import re
import tomllib
from typing import Any

from steelnewt_client.messages import canonical
from conftest import ROOT

DATED = """\
hosts = ['db1', "db2", "web-1"]   # three
duties = ["approve-db", "audit", "operate-db"]
conflicts = [
  ["approve-db", "audit"], # a pair
]
relays = ["chat",]
ceilings.low = { ask = "operate-db", approve = "approve-db", needs = 0x1, hosts = ["db1"],
  runas = ["root"], commands = ['/bin/echo a\\:b', "/bin/ls \\"\\""], longest = 7_200, }

[people]
ann = ["operate-db"]
"kim.l" = [{ duty = "approve-db", from = "20260101", until = "20261231" }, "audit"]
bob = [{ duty = "approve-db", from = "20260309", until = "20260315" },
       { duty = "audit", from = "20240229", until = "20240229" }]

[ceilings.db-root]
ask = "operate-db"
approve = "approve-db"
needs = 2
hosts = ["db1", "db2"]
runas = ["root"]
commands = ["ALL", "/usr/bin/", "/bin/ls", "/bin/ls -l /tmp"]
longest = 2_592_000
"""
WORDS = (
    "ann bob kim.l Ann _a a a-b a.b 9a sudoedit sha256 sha256x ALL all db1 db2 web1 db9 chat mail approve-db audit operate-db cash root postgres "
    "/bin/ls /bin/ls/ / /bin//ls /bin/../ls /bin/sudoedit /opt/sudoedit/ /opt/sudoedit/x /usr/bin/ /usr/bin/id /bin/* "
    "20260101 20260230 19691231 20991231 21000101 20240229 2026010 0 1 3 4 -1 1.0 1e2 7_200 7__2 0x1 2592000 2592001 "
    "9223372036854775807 9223372036854775808 true false inf nan 2026-01-05 10:00 ask approve needs "
    "hosts runas commands longest people ceilings relays duties conflicts duty from until"
).split()
WORDS += ["x" * 32, "x" * 33, "", "/bin/ls -l", '/bin/ls ""', "/bin/ls  -l", "/bin/echo a\\:b", "/bin/echo a:b"]
WORDS += ["/bin/ls " + "-a " * 15 + "-a", "/bin/ls" + " -a" * 17]
WORDS += ["/" + "a" * 254, "/" + "a" * 255, "/bin/x " + "b" * 64, "/bin/x " + "b" * 65, "é", "a b"]
MARKS = list("[]{}=,.\"'#\n\t \r\\_-+:/xu0aA\x00\x7fé") + ["\r\n", '"""', "'''", "[[", "]]", "\\u0041", "\\x41", "\\e", "\\ud800"]
MARKS += ["[people]\n", "[ceilings.x]\n", "a.b = 1\n", "{}", "[]"]
TOKEN = re.compile(r"""[A-Za-z0-9_./:+-]+|"[^"\n]*"|'[^'\n]*'""")


def newer(roster: str) -> str:
    """The examples' roster with a table over several lines, which TOML 1.0 does not have."""
    days = '{ duty = "approve-db",\n  from = "20250101",\n  until = "20271231", }'
    return roster.replace('bob = ["approve-db"]', f"bob = [{days}]")


def changed(chance: random.Random, text: str, words: list[str], marks: list[str]) -> str:
    """The text with one part changed."""
    kind = chance.randrange(10)
    tokens = list(TOKEN.finditer(text))
    if kind < 4 and tokens:
        token = chance.choice(tokens)
        word = chance.choice(words)
        quote = token[0][0] if token[0][0] in "\"'" and chance.random() < 0.9 else ""
        return text[: token.start()] + quote + (word.replace("\\", "\\\\") if quote == '"' and chance.random() < 0.8 else word) + quote + text[token.end() :]
    lines = text.split("\n")
    place = chance.randrange(len(lines))
    if kind == 4:
        return "\n".join(lines[:place] + lines[place + 1 :])
    if kind == 5:
        other = chance.randrange(len(lines) + 1)
        return "\n".join(lines[:other] + [lines[place]] + lines[other:])
    at = chance.randrange(len(text) + 1)
    if kind == 6 and tokens:
        one, other = sorted(chance.sample(range(len(tokens)), 2)) if len(tokens) > 1 else (0, 0)
        a, b = tokens[one], tokens[other]
        return text[: a.start()] + b[0] + text[a.end() : b.start()] + a[0] + text[b.end() :] if one != other else text
    if kind == 7:
        return text[:at] + text[at + 1 :]
    if kind == 8 and tokens:
        token = chance.choice(tokens)
        return text[: token.end()] + ", " + token[0] + text[token.end() :]
    return text[:at] + chance.choice(marks) + text[at:]


def toml_of(value: object) -> str:
    """A value in TOML."""
    if isinstance(value, dict):
        return "{ " + ", ".join(f"{json.dumps(key, ensure_ascii=False)} = {toml_of(it)}" for key, it in value.items()) + " }"
    if isinstance(value, list):
        return f"[{', '.join(map(toml_of, value))}]"
    return "2026-01-05" if value is None else json.dumps(value, ensure_ascii=False)


def places(value: object, path: tuple[str | int, ...] = ()) -> list[tuple[str | int, ...]]:
    """The paths of all parts of a value."""
    inner = list(value.items()) if isinstance(value, dict) else list(enumerate(value)) if isinstance(value, list) else []
    return [path, *(it for key, held in inner for it in places(held, (*path, key)))]


NUMBERS = [0, 1, 3, 4, -1, 1.0, 2_592_000, 2_592_001, 2**63 - 1, True]
ENTRIES = [
    {"duty": "audit", "from": days.split()[0], "until": days.split()[1]}
    for days in (
        "20260101 20260101", "20260102 20260101", "20260230 20260301", "19691231 20260101", "20260101 21000101", "2026-01-01 20260101",
    )
]  # fmt: skip


def revalued(chance: random.Random, document: dict[str, Any]) -> None:
    """Another value at some place, one more or one less there, or two that change places."""
    *front, last = chance.choice(places(document)[1:])
    holder: Any = document
    for key in front:
        holder = holder[key]
    old = holder[last]
    kind = chance.randrange(8)
    if kind == 0:
        del holder[last]
    elif kind == 1:
        holder[last] = chance.choice([*VALUES, *NUMBERS])
    elif kind == 2:
        holder[last] = chance.choice(WORDS)
    elif kind == 3 and isinstance(holder, list):
        holder.append(chance.choice([old, *WORDS[:20], *ENTRIES]))
    elif kind == 4 and isinstance(holder, list) and len(holder) > 1:
        holder[int(last)] = holder[int(last) - 1]
    elif isinstance(old, bool | int):
        holder[last] = chance.choice(NUMBERS)
    elif kind == 5 and isinstance(old, list) and old:
        holder[last] = old * chance.choice([2, 64, 65, 256, 257])
    elif kind == 6 and isinstance(holder, dict):
        holder[chance.choice(WORDS)] = old
    elif isinstance(old, str):
        holder[last] = chance.choice(WORDS[:24] + ["approve-db", "audit", "operate-db"])


def rosters(count: int, seed: int = 1) -> list[bytes]:
    chance = random.Random(seed)
    with open(os.path.join(ROOT, "examples", "roster.toml"), encoding="utf-8") as file:
        bases = [file.read(), DATED]
    document = tomllib.loads(bases[0])
    document["people"]["frank"] = [ENTRIES[0], "audit"]
    found = []
    for number in range(count):
        text = chance.choice(bases)
        if number % 2:
            copied = copy.deepcopy(document)
            for _ in range(chance.choice([1, 1, 1, 1, 2, 3])):
                revalued(chance, copied)
            text = "".join(f"{json.dumps(key, ensure_ascii=False)} = {toml_of(it)}\n" for key, it in copied.items())
        for _ in range(chance.choice([1, 1, 1, 2, 2, 3, 5]) if number % 2 == 0 or chance.random() < 0.05 else 0):
            text = changed(chance, text, WORDS, MARKS)
        data = text.encode()
        if chance.random() < 0.01:
            at = chance.randrange(len(data) + 1)
            data = data[:at] + chance.choice([b"\xff", b"\xc3", b"\xed\xa0\x80", b"\xef\xbb\xbf"]) + data[at:]
        found.append(data)
    return found


def at(document: dict[str, Any], path: str, value: Any) -> str:
    """The roster's text with a value at a path; a path that ends in `=` renames a key."""
    copied = copy.deepcopy(document)
    *front, last = [int(key) if key.isdigit() else key for key in path.removesuffix("=").split("/")]
    holder: Any = copied
    for key in front:
        holder = holder[key]
    if path.endswith("="):
        holder[value] = holder.pop(last)
    else:
        holder[last] = value
    return "".join(f"{json.dumps(key, ensure_ascii=False)} = {toml_of(it)}\n" for key, it in copied.items())


def limits() -> list[tuple[str, str]]:
    """A small roster with each of its values at a limit, or just past it."""
    ceiling: dict[str, Any] = {"ask": "ask", "approve": "ok", "needs": 1, "hosts": ["db1"], "runas": ["root"], "commands": ["ALL"], "longest": 60}
    document: dict[str, Any] = {"relays": ["chat"], "hosts": ["db1"], "duties": ["ask", "ok"], "conflicts": []}
    document |= {"people": {"ann": ["ask"]}, "ceilings": {"c": ceiling}}
    names = ["a" * 32, "a" * 33, "a-", "-a", "A", "1a", "a1", "a.b", "a_b", "_a", "é", "sudoedit", "sha224", "sha512", "sha1", "a b", "", "a\n"]
    found = [(path, word) for path in ("relays/0", "people/ann=", "ceilings/c=", "ceilings/c/runas/0") for word in names]
    rows: list[tuple[str, Any]] = [*found]
    commands = ["ALL", "all", "/a", "/a/", "/", "//a", "/a//", "/.", "/..", "/a/../b", "/.a", "/a/sudoedit", "/sudoedit/", "/a/sudoedit/b"]
    commands += ["/a ", " /a", '/a ""', "/a b", "/a  b"]
    commands += ["/a \\,", "/a ,", "/a \\:b", "/a a\\=b", "/a \\a", '/a "" b', "/a/ b", "ALL b", "/a *", "/a\t", "/a b\n", "/a " + "b" * 64, "/a " + "b" * 65]
    commands += ["/" + "a" * 254, "/" + "a" * 255, "/" + "a" * 253 + "/", "/" + "a" * 254 + "/", "/a" + " b" * 16, "/a" + " b" * 17]
    commands += ["/" + "a" * count + (" " + "b" * 60) * 16 for count in (45, 46, 47, 48)]
    commands += ["/a " + "\\," * 64, "/a " + "\\," * 65]
    rows += [("ceilings/c/commands/0", command) for command in commands]
    rows += [("ceilings/c/needs", number) for number in (0, 1, 3, 4, -1, 1.0, "1", True)]
    rows += [("ceilings/c/longest", number) for number in (0, 1, 2_592_000, 2_592_001)]
    days = "19700101 20991231, 19691231 20991231, 19700101 21000101, 20240229 20240229, 20250229 20250301, 20250302 20250301"
    for first, last in map(str.split, days.split(", ")):
        rows.append(("people/ann", [{"duty": "ask", "from": first, "until": last}]))
    counts: list[tuple[str, Any, int]] = [("relays", "chat", 64), ("hosts", "db1", 1024), ("duties", "ok", 254), ("people/ann", "ask", 256)]
    for path, word, most in [*counts, ("conflicts", ["ask", "ok"], 4096)]:
        start = ["ask", "ok"] if path == "duties" else []
        rows += [(path, start + [word] * count) for count in (0, 1, most, most + 1)]
    for path in ("hosts", "runas", "commands"):
        rows += [(f"ceilings/c/{path}", ceiling[path] * count) for count in (0, 1, 256, 257)]
    rows += [("people", {f"p{number}": ["ask"] for number in range(count)}) for count in (0, 4096, 4097)]
    rows += [("ceilings", {f"c{number}": ceiling for number in range(count)}) for count in (0, 1024, 1025)]
    rows += [("conflicts", pairs) for pairs in ([["ask"]], [["ask", "ok", "ok"]], [["ask", "ask"]], [["ok", "ask"]], [["ask", "no"]], [[]], ["ask"])]
    return [(f"{path} = {str(value)[:60]}", at(document, path, value)) for path, value in rows]


VALUES: list[Any] = [0, 7, -1, 10**9, 999_999_999, 7.0, True, None, [], {}, "", "request", "approve", "revoke", "20260230090000Z"]
VALUES += [[["db1"]], ["db1", "db1"], ["db2", "db1"], ["db1", "db2"]]
VALUES += ["20260105090000Z", "2026010509Z", "20260105096000Z", "20991231235959Z", "21000101000000Z", "20260105090000z", "db-care", "db-emergency"]
STAMPS = ["20260105060000Z", "20260105090000Z", "20260105103000Z", "20260105110000Z", "20260105110001Z", "20260106000000Z"]
ASKED = {
    "at": "20260105060000Z", "by": "ann", "ceiling": "db-care", "cmnds": ["/usr/bin/id"], "from": "20260105090000Z", "hosts": ["db1"],
    "kind": "request", "no": 7, "runas": "root", "until": "20260105103000Z",
}  # fmt: skip
SAID = {"at": "20260105083000Z", "by": "bob", "kind": "approve", "no": 7, "of": "ann"}
COMMANDS = ["/usr/bin/id", "/usr/bin/id -u", '/usr/bin/id ""', "/usr/bin/", "/usr/local/sbin/x", "/usr/local/sbin/x y", "/usr/local/sbin/", "ALL", "/bin/ls"]
COMMANDS += ["/usr/bin/systemctl restart postgresql", "/usr/bin/systemctl", "/usr/local/sbin/a/b"]


ODD = ["", "[" * 127 + "]" * 127, "[" * 128 + "]" * 128, "7", '""', "null", "-0", "1e400", "18446744073709551615", "18446744073709551616"]
ODD += ['"\\ud800"', "{}"]


def altered(chance: random.Random, message: dict[str, object]) -> dict[str, object]:
    """The message with another value, a member more or less, or one that other messages have."""
    found = dict(message)
    kind = chance.randrange(12)
    key = chance.choice(sorted(found))
    if kind == 0:
        found[key] = chance.choice(VALUES)
    elif kind == 1:
        found[key] = chance.choice(WORDS)
    elif kind == 2:
        del found[key]
    elif kind == 3:
        found[chance.choice(["of", "x", "runas", "At", "hosts", "é"])] = chance.choice(VALUES)
    elif kind == 4 and "cmnds" in found:
        found["cmnds"] = chance.sample(WORDS, chance.randint(1, 3))
    elif kind < 8 and "cmnds" in found:
        found["cmnds"] = sorted(chance.sample(COMMANDS, chance.randint(1, 3)))
    elif kind < 10 and "from" in found:
        found |= {"at": chance.choice(STAMPS), "from": chance.choice(STAMPS), "until": chance.choice(STAMPS)}
    elif kind == 10 and "hosts" in found:
        found["hosts"] = sorted(chance.sample(["db1", "db2", "web1", "db9"], chance.randint(1, 3)))
    else:
        found["by"] = chance.choice(["ann", "bob", "carol", "dave", "eve", "zoe"])
        found["ceiling" if "ceiling" in found else "of"] = chance.choice(["db-care", "db-emergency", "ann", "zoe"])
    return found


def messages(count: int, seed: int = 2) -> list[bytes]:
    """Lines: none has a newline in it."""
    chance = random.Random(seed)
    found = []
    for _ in range(count):
        message = dict(chance.choice([ASKED, ASKED, SAID]))
        for _ in range(chance.choice([0, 1, 1, 1, 2])):
            message = altered(chance, message)
        text = canonical(message)
        for _ in range(chance.choice([0, 0, 0, 1, 2])):
            text = changed(chance, text, WORDS, MARKS)
        if chance.random() < 0.01:
            text = chance.choice(ODD)
        if chance.random() < 0.01:
            text += " " * chance.choice([16_384 - len(text.encode()), 16_385 - len(text.encode())])
        data = text.encode("utf-8", "surrogatepass")
        if chance.random() < 0.01:
            data = data[:5] + b"\xff" + data[5:]
        found.append(data.replace(b"\n", b""))
    return found
