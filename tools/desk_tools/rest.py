"""What stays on a host: a sudoers file of its Defaults, of the rules that are not in the base, and
of the aliases that these name.

sudo reads it before the desk's file, so that nothing in it denies a grant; and the base's aliases
have a prefix, so that no name is defined twice.
"""

from desk_tools import sudo_text
from desk_tools.cvtsudoers import BadSudoers
from desk_tools.entries import Entry
from desk_tools.sudoers import ALIAS, Place, Sudoers, line_read

HEAD = """\
# What stays on this host, beside the desk's file (desk-import). sudo reads it before that file.
"""
# what it has the rules of, beside the first file: a host that keeps these, too, has them twice
TAKEN = "# in place of: "


def text_of(sudoers: Sudoers, entries: list[Entry]) -> str:
    """The file's text, in the order of the files that it is made of."""
    lines = {line.place: [sudoers.texts[line.place]] for line in sudoers.defaults}
    for place in dict.fromkeys(it.place for it in entries):
        held = [it for it in entries if it.place == place]
        if staying := rules(sudoers, held):
            lines.setdefault(place, []).extend(staying)
    named = aliases(sudoers, [text for held in lines.values() for text in held])
    lines |= {place: [sudoers.texts[place]] for place in named}
    body = [text for place in sudoers.texts for text in lines.get(place, [])]
    folders = [f"@includedir {name}" for name in dict.fromkeys(sudoers.folders)]
    taken = [f"{TAKEN}{name}" for name in sudoers.included]
    return HEAD + "".join(f"{line}\n" for line in [*taken, *body, *folders])


def rules(sudoers: Sudoers, held: list[Entry]) -> list[str]:
    """The rules of a line that stay: the line itself where all do."""
    staying = [it for it in held if not it.is_kept() and not it.is_elsewhere]
    line = sudoers.texts[held[0].place]
    if not staying:
        return []
    if len(staying) == len(held):
        return [line]
    texts = [sudo_text.rule(it.spec, it.part, it.item) for it in staying]
    are_same = all(is_same(*it, sudoers) for it in zip(texts, staying))
    return texts if are_same else [line]


def is_same(text: str, entry: Entry, sudoers: Sudoers) -> bool:
    """Whether sudo reads in a text just this rule. (Where it does not, the line stays whole: what
    stands in both says the same.)"""
    try:
        specs = line_read(text, "rest", sudoers.aliases)[0].get("User_Specs", [])
    except BadSudoers:
        return False
    if len(specs) != 1 or len(specs[0]["Cmnd_Specs"]) != 1:
        return False
    spec, part = specs[0], specs[0]["Cmnd_Specs"][0]
    wanted = {**entry.part, "Commands": [entry.item]}
    are_same = all(spec[key] == entry.spec[key] for key in ("User_List", "Host_List"))
    return are_same and part == wanted


def aliases(sudoers: Sudoers, texts: list[str]) -> set[Place]:
    """Where the aliases stand that these texts may name, and those that they name."""
    places: dict[str, set[Place]] = {}
    for named in sudoers.aliases.values():
        for name, held in named.items():
            places.setdefault(name, set()).add(held.place)
    found: set[Place] = set()
    while texts:
        names = {name for text in texts for name in ALIAS.findall(text)}
        new = {place for name in names for place in places.get(name, ())}
        texts = [sudoers.texts[place] for place in new - found]
        found |= new
    return found
