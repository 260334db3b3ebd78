#!/usr/bin/env python3
"""Checks build/pages (`make pages`): the manual pages by mandoc, packaging/commands.toml by the
program's own help, the examples of desk(1) by running them, and the completions in a real bash and
a real zsh. `python3 -m tests.documents.check_pages WORDS..` runs another program than build/desk.
"""

import os
import re
import shutil
import subprocess
import sys
import tempfile
import tomllib

from tests.common import desk

PAGES = os.path.join(desk.BUILD, "pages")
WIDTH = 80
LINES = 24
# What is typed, and what is completed; `base.` and `roster.` are files of examples/.
TYPED: list[tuple[list[str], set[str]]] = [
    (
        ["desk", ""],
        {"check", "decide", "beyond", "deliver", "print", "rebuild", "review", "serve"},
    ),
    (["desk", "re"], {"rebuild", "review"}),
    (["desk", "check", "base."], {"base.sudo"}),
    (["desk", "decide", "base.sudo", ""], set()),
    (
        ["desk", "print", "roster.toml", "site.sudo", "desk.db", "--"],
        {"--after", "--help", "--sync"},
    ),
    (["desk", "rebuild", "--s"], {"--sync"}),
    (["desk", "print", "--after", ""], set()),
    (["desk", "print", "--after", "20260105093000Z", "ros"], {"roster.toml"}),
    (["desk", "beyond", "site.sudo", "--u"], {"--user"}),
    (["desk", "serve", "roster.toml", "site.sudo", "app"], {"approved.messages"}),
    (["desk", "nothing", ""], set()),
    (["desk-lint", "rost"], {"roster.toml"}),
    (["desk-lint", "--r"], {"--roster"}),
    (["desk-lint", "--roster", "rost"], {"roster.toml"}),
    (["desk-lint", "--explain", ""], set()),
    (["desk-import", "--rep"], {"--report"}),
    (["desk-import", "base."], {"base.sudo"}),
    (["desk-import", "comp"], {"compare"}),
    (["desk-used", "--base"], {"--baseline"}),
    (["desk-used", "used."], {"used.log"}),
    (["desk-evidence", "--sec"], {"--second-reading"}),
    (["desk-evidence", "--year", ""], set()),
    (["desk-evidence", "--sam"], {"--sample"}),
    (["desk-standing", "--ru"], {"--runas"}),
    (["desk-standing", "base."], {"base.sudo"}),
    (["desk-change-roster", "rost"], {"roster.toml"}),
    (["desk-change-roster", "--give"], {"--give-back"}),
    (["desk-change-base", "--ti"], {"--ticket"}),
    (["desk-roster", "--pe"], {"--people"}),
    (["desk-roster", "--on", ""], set()),
    (["desk-demo", "--d"], {"--desk"}),
    (["desk-relay", "po"], {"post", "post-again"}),
    (["desk-relay", "--p"], {"--person"}),
    (["desk-relay-person", "re"], {"remove", "renew"}),
    (["desk-relay-person", "--k"], {"--keys"}),
    (["desk-compare", "me"], {"messages"}),
    (["desk-publish", "--p"], {"--patience"}),
    (["desk-audit", "ros"], {"roster.toml"}),
    (["desk-audit", "--p"], {"--person"}),
    (["desk-audit", "--host", ""], set()),
]


def help_of(*words: str) -> str:
    return subprocess.run(
        [*desk.named(), *words, "--help"], stdout=subprocess.PIPE, check=True, text=True
    ).stdout


def check_pages() -> tuple[int, list[str]]:
    """Each page by `mandoc -Tlint`. Pages that are not installed yet refer to each other."""
    names, wrong = sorted(name for name in os.listdir(PAGES) if re.search(r"\.[1-8]$", name)), []
    for name in names:
        ran = subprocess.run(
            ["mandoc", "-Tlint", name],
            cwd=PAGES,
            stdout=subprocess.PIPE,
            stderr=subprocess.DEVNULL,
            text=True,
            check=False,
        )
        lines = [
            line
            for line in ran.stdout.splitlines()
            if not re.search(r"referenced manual not found: Xr (desk|sudo|visudo)", line)
        ]
        wrong += [f"mandoc: {line}" for line in lines]
    return len(names), wrong


def check_screen(what: str, text: str) -> list[str]:
    """A help fits a screen."""
    lines = text.splitlines()
    wide = [line for line in lines if len(line) > WIDTH]
    return (
        [f"{what}: it is no screen of {WIDTH} by {LINES}: {wide or len(lines)}"]
        if wide or len(lines) > LINES
        else []
    )


def usage(command: dict) -> str:
    words = [word if word.startswith("[") else f"<{word}>" for word in command["words"]]
    return " ".join(
        ["Usage: desk", command["name"], *(["[OPTIONS]"] if command.get("options") else []), *words]
    )


def check_help(commands: list[dict]) -> tuple[int, list[str]]:
    """The table of commands beside what the program says of itself."""
    whole, wrong = help_of(), []
    said = dict(
        re.findall(
            r"^  ([a-z]+) +(\S.*)$",
            whole.partition("Commands:")[2].partition("Options:")[0],
            re.MULTILINE,
        )
    )
    said.pop("help", None)
    wrong += check_screen("desk --help", whole)
    if said != {command["name"]: command["about"] for command in commands}:
        wrong.append(f"packaging/commands.toml has other commands than the program: {said}")
    for command in commands:
        text = help_of(command["name"])
        wrong += check_screen(f"desk {command['name']} --help", text)
        options = re.findall(r"^      (--[a-z]+) <([A-Z]+)>", text, re.MULTILINE)
        if usage(command) not in text or options != [
            tuple(option) for option in command.get("options", [])
        ]:
            wrong.append(
                f"packaging/commands.toml: {command['name']} is another than the program's: {text}"
            )
    return 1 + 2 * len(commands), wrong


def check_tools(tools: list[dict]) -> tuple[int, list[str]]:
    """The table's options of each program that has a page of its entry, beside its own help."""
    wrong = []
    for tool in (each for each in tools if "says" in each):
        folders = (os.path.join(desk.ROOT, it) for it in ("broker", "relays", "tools", "build"))
        path = shutil.which(tool["name"], path=":".join(folders)) or tool["name"]
        words = [[path, *word, "--help"] for word in ([], *([it] for it in tool.get("words", [])))]
        texts = [subprocess.run(each, capture_output=True, text=True).stdout for each in words]
        option = re.compile(r"^ {2}(?: {4})?(?:-h, )?(--[a-z][a-z0-9-]*)", re.MULTILINE)
        found = set(option.findall("\n".join(texts)))
        if found != {name for name, _ in tool["options"]}:
            wrong.append(f"packaging/commands.toml: {tool['name']} has the options {found}")
    return sum("says" in each for each in tools), wrong


def check_examples(commands: list[dict]) -> tuple[int, list[str]]:
    """The examples of desk(1), in order, in a folder with the files of examples/."""
    count, wrong = 0, []
    with tempfile.TemporaryDirectory() as folder:
        copy_examples(folder)
        with open(os.path.join(folder, "bin", "desk"), "w", encoding="utf-8") as file:
            file.write('#!/bin/sh\nexec %s "$@"\n' % " ".join(desk.named()))
        os.chmod(file.name, 0o755)
        env = dict(os.environ, PATH=f"{folder}/bin:{os.environ['PATH']}")
        for example in (each for command in commands for each in command.get("examples", [])):
            count += 1
            ran = subprocess.run(
                ["sh", "-c", example["run"]],
                cwd=folder,
                stdout=subprocess.PIPE,
                stderr=subprocess.STDOUT,
                text=True,
                check=False,
                env=env,
            )
            if (ran.stdout, ran.returncode) != (example["prints"], example.get("status", 0)):
                wrong.append(f"{example['run']}: status {ran.returncode}: {ran.stdout}")
    return count, wrong


def copy_examples(folder: str) -> None:
    os.mkdir(os.path.join(folder, "bin"))
    for name in os.listdir(desk.EXAMPLES):
        path = os.path.join(desk.EXAMPLES, name)
        if os.path.isfile(path):
            shutil.copy(path, folder)


BASH = """
source {pages}/$1.bash
COMP_WORDS=("$@") COMP_CWORD=$(($# - 1))
_${{1//-/_}}
printf '%s\\n' "${{COMPREPLY[@]}}"
"""


def by_bash(folder: str, words: list[str]) -> set[str]:
    ran = subprocess.run(
        ["bash", "-c", BASH.format(pages=PAGES), "bash", *words],
        cwd=folder,
        stdout=subprocess.PIPE,
        stderr=subprocess.DEVNULL,
        text=True,
        check=False,
    )
    return set(ran.stdout.split())


def by_zsh(folder: str, words: list[str]) -> set[str]:
    """What zsh would add: `compadd` is asked to tell it, in a shell whose terminal is zpty's."""
    script = os.path.join(folder, "bin", "capture.zsh")
    with open(script, "w", encoding="utf-8") as file:
        file.write(CAPTURE)
    line = " ".join(words)
    ran = subprocess.run(
        ["zsh", "-f", script, PAGES, line],
        cwd=folder,
        stdout=subprocess.PIPE,
        stderr=subprocess.DEVNULL,
        text=True,
        check=False,
        timeout=60,
    )
    return {word for word in ran.stdout.split() if word}


# A tab completes, and then says that it is over: what is typed behind it could stop it.
CAPTURE = r"""
zmodload zsh/zpty
zpty z zsh -f -i
zpty -w z "PROMPT= fpath=($1 \$fpath); autoload -Uz compinit; compinit -u -D; setopt rcquotes"
zpty -w z 'zstyle ":completion:*" list-grouped false; zstyle ":completion:*" verbose false'
zpty -w z 'is_asked() { [[ ${@[1,(i)(-|--)]} == *-(O|A|D)\ * ]] }'
zpty -w z 'tell() { typeset -a hits; builtin compadd -A hits "$@"; print -r "<hits> $hits <end>" }'
zpty -w z 'compadd() { if is_asked "$@"; then builtin compadd "$@"; else tell "$@"; fi }'
zpty -w z 'finish() { zle complete-word; print; print -r "<over>" }; zle -N finish'
zpty -w z 'bindkey "^I" finish; print ready-$((1 + 1))'
while zpty -r z line; do [[ $line == *ready-2* ]] && break; done
zpty -w -n z "$2"$'\t'
while zpty -r z line; do
    [[ $line == *'<hits>'*'<end>'* ]] && print -r -- ${${line##*<hits>}%%<end>*}
    [[ $line == *'<over>'* ]] && break
done
zpty -d z
"""


def check_completions() -> tuple[int, list[str]]:
    wrong = []
    with tempfile.TemporaryDirectory() as folder:
        copy_examples(folder)
        for words, wanted in TYPED:
            for shell, ask in (("bash", by_bash), ("zsh", by_zsh)):
                got = ask(folder, words)
                hidden = {"--help"} if words[-1] == "" or shell == "zsh" else set()
                if got - hidden != wanted - hidden:
                    wrong.append(f"{shell}: {words}: {sorted(got)}")
    return 2 * len(TYPED), wrong


def main() -> None:
    table = tomllib.loads(desk.read("packaging", "commands.toml"))
    commands, tools = table["command"], table["tool"]
    parts = [check_pages(), check_help(commands), check_tools(tools)]
    parts += [check_examples(commands), check_completions()]
    wrong = [line for _, lines in parts for line in lines]
    checks = sum(count for count, _ in parts)
    print("".join(f"{line}\n" for line in wrong), end="")
    print(f"manual pages, help, examples and completions: {checks} checks, {len(wrong)} wrong")
    sys.exit(1 if wrong else 0)


if __name__ == "__main__":
    main()
