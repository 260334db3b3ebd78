"""The completions of bash and zsh, of the table of commands."""

import shlex


def bash(commands: list[dict], files: list[str]) -> str:
    """A function that needs nothing but bash itself."""
    names = " ".join(command["name"] for command in commands)
    rows = []
    for command in commands:
        options = " ".join(["--help", *(name for name, _ in command.get("options", []))])
        places = " ".join("file" if word in files else "other" for word in command["words"])
        rows.append(f"        {command['name']}) options='{options}' places=({places}) ;;")
    return BASH.replace("@NAMES@", names).replace("@ROWS@", "\n".join(rows))


BASH = """\
# What bash completes behind `desk`: commands, options and files.
_desk() {
    local current=${COMP_WORDS[COMP_CWORD]} before=${COMP_WORDS[COMP_CWORD - 1]} place=0 at
    local options places
    COMPREPLY=()
    if [ "$COMP_CWORD" -eq 1 ]; then
        mapfile -t COMPREPLY < <(compgen -W '@NAMES@ --help' -- "$current")
        return
    fi
    case ${COMP_WORDS[1]} in
@ROWS@
        *) return ;;
    esac
    case $before in
        --help) ;;
        --*) return ;;
    esac
    case $current in
        -*)
            mapfile -t COMPREPLY < <(compgen -W "$options" -- "$current")
            return
            ;;
    esac
    # which place the word has: options and their values take none
    for ((at = 2; at < COMP_CWORD; at++)); do
        case ${COMP_WORDS[at]} in
            --*) at=$((at + 1)) ;;
            *) place=$((place + 1)) ;;
        esac
    done
    if [ "${places[place]:-other}" = file ]; then
        compopt -o filenames 2> /dev/null
        mapfile -t COMPREPLY < <(compgen -f -- "$current")
    fi
}
complete -F _desk desk
"""


def zsh_case(command: dict, files: list[str]) -> str:
    words = []
    for word in command["words"]:
        action = "_files" if word in files else " "
        words.append(f"'*:{word[1:-4]}: '" if word.startswith("[") else f"':{word}:{action}'")
    options = [f"'{name}[{value}]:{value}: '" for name, value in command.get("options", [])]
    return f"        {command['name']}) _arguments --help {' '.join([*options, *words])} ;;"


def zsh(commands: list[dict], files: list[str]) -> str:
    names = "\n".join(
        "        " + shlex.quote(f"{command['name']}:{command['about']}") for command in commands
    )
    cases = "\n".join(zsh_case(command, files) for command in commands)
    return ZSH.replace("@NAMES@", names).replace("@CASES@", cases)


ZSH = """\
#compdef desk
# What zsh completes behind `desk`: commands, options and files.
_desk() {
    local -a commands
    commands=(
@NAMES@
    )
    if (( CURRENT == 2 )); then
        _describe command commands
        return
    fi
    local command=$words[2]
    shift words
    (( CURRENT -= 1 ))
    case $command in
@CASES@
    esac
}
_desk "$@"
"""


def tool_bash(tool: dict) -> str:
    """Completes options and files; a value that is no file is not completed."""
    names = " ".join(name for name, _ in tool["options"])
    others = "|".join(name for name, kind in tool["options"] if kind == "other")
    function = "_" + tool["name"].replace("-", "_")
    frame = ASKING_BASH if tool.get("asks") else TOOL_BASH
    text = frame.replace("@NAMES@", names).replace("@FUNCTION@", function)
    text = text.replace("@WORDS@", " ".join(tool.get("words", [])))
    # (words stand behind the files where the first word may be one, and else in their place)
    behind = '-O "${#COMPREPLY[@]}" ' if tool.get("or_files") else ""
    text = text.replace("@TAKE@", f"mapfile -t {behind}COMPREPLY")
    return text.replace("@TOOL@", tool["name"]).replace("@OTHERS@", others or "--")


TOOL_BASH = """\
# What bash completes behind `@TOOL@`: options and files.
@FUNCTION@() {
    local current=${COMP_WORDS[COMP_CWORD]} before=${COMP_WORDS[COMP_CWORD - 1]}
    COMPREPLY=()
    case $before in
        @OTHERS@) return ;;
    esac
    case $current in
        -*) mapfile -t COMPREPLY < <(compgen -W '@NAMES@' -- "$current") ;;
        *)
            compopt -o filenames 2> /dev/null
            mapfile -t COMPREPLY < <(compgen -f -- "$current")
            [ "$COMP_CWORD" -ne 1 ] || [ -z '@WORDS@' ] ||
                @TAKE@ < <(compgen -W '@WORDS@' -- "$current")
            ;;
    esac
}
complete -F @FUNCTION@ @TOOL@
"""


# (a program that knows the words of somewhere else is asked for them)
ASKING_BASH = """\
# What bash completes behind `@TOOL@`: its options, and what `@TOOL@ complete` says.
@FUNCTION@() {
    local current=${COMP_WORDS[COMP_CWORD]} before=${COMP_WORDS[COMP_CWORD - 1]}
    COMPREPLY=()
    case $before in
        @OTHERS@) return ;;
    esac
    if [ "$COMP_CWORD" -eq 1 ]; then
        mapfile -t COMPREPLY < <(compgen -W '@WORDS@ @NAMES@' -- "$current")
        return
    fi
    local typed=("${COMP_WORDS[@]:1:COMP_CWORD}")
    mapfile -t COMPREPLY < <(@TOOL@ complete "${typed[@]}" < /dev/null 2> /dev/null)
    if [ "${#COMPREPLY[@]}" -eq 0 ]; then
        compopt -o filenames 2> /dev/null
        mapfile -t COMPREPLY < <(compgen -f -- "$current")
    fi
}
complete -F @FUNCTION@ @TOOL@
"""
ASKING_ZSH = """\
#compdef @TOOL@
# What zsh completes behind `@TOOL@`: its words and options, and what `@TOOL@ complete` says.
if (( CURRENT == 2 )); then
    compadd -- @WORDS@ @NAMES@
else
    local -a found
    found=("${(@f)$(@TOOL@ complete "${(@)words[2,CURRENT]}" 2> /dev/null < /dev/null)}")
    if [[ -n ${found[1]} ]]; then compadd -- $found; else _files; fi
fi
"""


def tool_zsh(tool: dict) -> str:
    if tool.get("asks"):
        names = " ".join(name for name, _ in tool["options"])
        text = ASKING_ZSH.replace("@NAMES@", names).replace("@WORDS@", " ".join(tool["words"]))
        return text.replace("@TOOL@", tool["name"])
    values = {"": "", "file": ":FILE:_files", "other": ":WORD: "}
    options = " ".join(f"'{name}[{name[2:]}]{values[kind]}'" for name, kind in tool["options"])
    words = ""
    if "words" in tool:
        named = " ".join(tool["words"])
        first = f"{{compadd {named}; _files}}" if tool.get("or_files") else f"({named})"
        words = f"'1:WORD:{first}' "
    return (
        f"#compdef {tool['name']}\n# What zsh completes behind `{tool['name']}`: options and"
        f" files.\n_arguments {options} {words}'*:FILE:_files'\n"
    )
