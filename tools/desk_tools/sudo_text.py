"""What cvtsudoers tells, as it stands in a sudoers file."""

import re
from typing import Any

from desk_tools.sudo_settings import OPTIONS, TAGS

MARKS = {
    "usergroup": "%",
    "usergid": "%#",
    "nonunixgroup": "%:",
    "nonunixgid": "%:#",
    "netgroup": "+",
    "userid": "#",
}
SPECIAL = re.compile(r"([@!=:,()\\\" \t])")
# what stands beside a command's options
SPECS = ("SELinux_Spec", "AppArmor_Spec", "Solaris_Priv_Spec")


def shown(item: dict[str, Any]) -> str:
    """An item of a list, with its sign."""
    sign = "!" if item.get("negated") else ""
    key, value = next((key, str(it)) for key, it in item.items() if key != "negated")
    if key == "command":
        digests = [f"{name}:{it}" for name, it in item.items() if name.startswith("sha")]
        return f"{', '.join(digests)} {sign}{command(value)}".strip()
    if key in MARKS:
        return sign + MARKS[key] + SPECIAL.sub(r"\\\1", value)
    return sign + (value if key == "networkaddr" else SPECIAL.sub(r"\\\1", value))


def command(text: str) -> str:
    path, blank, args = text.partition(" ")
    if text.startswith("^") or args in ("", '""') or args.startswith("^"):
        return text
    return path + blank + re.sub(r"([,:=])", r"\\\1", args)


def targets(part: dict[str, Any]) -> str:
    users, groups = part.get("runasusers"), part.get("runasgroups")
    if users is None and groups is None:
        return ""
    said = ", ".join(shown(it) for it in users or [] if it.get("username") != "")
    return f"({said}{f' : {target_groups(groups)}' if groups else ''}) "


def joined(held: list[dict[str, Any]]) -> str:
    return ", ".join(map(shown, held))


def target_groups(held: list[dict[str, Any]]) -> str:
    """Groups as targets, which have no mark."""
    return ", ".join(shown(item).replace("%", "", 1) for item in held)


def options(part: dict[str, Any]) -> str:
    """A command's options, and behind them its tags."""
    found = [
        f"{key.upper()}={it}"
        for name in SPECS
        for pair in part.get(name, [])
        for key, it in pair.items()
    ]
    tags = []
    for option in part.get("Options", []):
        for key, value in option.items():
            if key in TAGS:
                tags.append(f"{TAGS[key].yes if value else TAGS[key].no}:")
            else:
                found.append(f"{OPTIONS.get(key, key.upper())}={value}")
    return "".join(f"{it} " for it in (*found, *tags))


def rule(spec: dict[str, Any], part: dict[str, Any], item: dict[str, Any]) -> str:
    """A rule of one command."""
    left = f"{joined(spec['User_List'])} {joined(spec['Host_List'])}"
    return f"{left} = {targets(part)}{options(part)}{shown(item)}"
