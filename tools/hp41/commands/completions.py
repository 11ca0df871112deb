"""Writes the completions of a shell for `bench` and the tools, made from the documents and the helps of the tools.

usage: tools/completions bash >completions/bench.bash
       tools/completions zsh >completions/_bench
       tools/completions fish >completions/bench.fish

After `bench` the shell completes commands, options and their values. After `bench help` it completes commands of the program and
of decks, for example `show cpu`. After a tool it completes options, after `bench-play` and `bench-keys` also names of keys. All
other words are names of files. Run this tool after each change of a command, a key or an option; .ci/release compares its output
with the files.

Status 0: the completions are written. 2: the command line is wrong."""
import ast
import os
import re
import sys
from typing import Iterable, Optional

from .. import TOOLS, TOP
from ..decks import MEMORIES
from ..documents import codes_of, section_of, tables_of
from ..keyboard import KEYS
from ..matches import begin
from ..releases import FOR_CONTRIBUTORS, module_of

LAUNCHER: dict[str, list[str]] = {"prove": ["--all", "--check"], "help": [], "--help": [], "--version": []}
VALUES = {"--memory": list(MEMORIES), "--page": list("456789ABCDEF"), "--bank": list("1234")}

# The words of a command in its form.
COMMAND = re.compile(r"(?:show|break|unbreak) \w+|\w+")

# The files, in which each @NAME@ stands for words or for lines.
BASH = """\
# Written by tools/completions: completes the words after `bench` and the tools in bash.
_bench_values() {
    case $1 in
@VALUES@
    esac
}

_bench_options() {
    case $1 in
@OPTIONS@
    esac
}

_bench() {
    local word=${COMP_WORDS[COMP_CWORD]} before=${COMP_WORDS[COMP_CWORD-1]} name=${COMP_WORDS[0]##*/} words=
    [[ ${COMP_WORDS[0]} != *tools/* ]] || name=bench-$name
    words=$(_bench_values "$before")
    if [[ -n $words ]]; then
        :
    elif [[ $name == bench && $COMP_CWORD == 1 ]]; then
        words='@JOBS@'
    elif [[ $name == bench && ${COMP_WORDS[1]} == help ]]; then
        [[ $COMP_CWORD != 2 ]] || words='@FIRSTS@'
        case $COMP_CWORD$before in
@SECONDS@
        esac
    elif [[ $word == -* || ${COMP_WORDS[1]} == prove ]]; then
        [[ $name == bench ]] && words=$(_bench_options "${COMP_WORDS[1]}") || words=$(_bench_options "$name")
    elif [[ $name == bench-keys || $name == bench-play && $COMP_CWORD -ge 2 ]]; then
        words='@KEYS@'
    fi
    local IFS=$' \\t\\n'
    mapfile -t COMPREPLY < <(compgen -W "$words" -- "$word")
    [[ -n $words ]] || mapfile -t COMPREPLY < <(compgen -f -- "$word")
}

complete -o filenames -F _bench bench @NAMES@
"""
ZSH = """\
#compdef bench @NAMES@
# Written by tools/completions: completes the words after `bench` and the tools in zsh.
local -a words_of
local name=${service:t}
case ${words[CURRENT-1]} in
@VALUES@
esac
case $name in
    bench)
        if ((CURRENT == 2)); then
            compadd -- @JOBS@
            return
        elif [[ $words[2] == help ]]; then
            ((CURRENT != 3)) || compadd -- @FIRSTS@
            case $CURRENT$words[3] in
@SECONDS@
            esac
            return
        fi
        case $words[2] in
@JOB_OPTIONS@
        esac
        ;;
@TOOL_OPTIONS@
esac
if [[ $PREFIX == -* || $name$words[2] == benchprove ]]; then
    compadd -- $words_of
elif [[ $name == bench-keys || $name == bench-play && $CURRENT -gt 2 ]]; then
    compadd -- @KEYS@
else
    _files
fi
"""
FISH = """\
# Written by tools/completions: completes the words after `bench` and the tools in fish.
function __bench_words
    count (commandline -opc)
end
complete -c bench -n '__fish_use_subcommand' -f -a '@JOBS@'
complete -c bench -n '__fish_seen_subcommand_from help prove' -f
complete -c bench -n '__fish_seen_subcommand_from help; and test (__bench_words) = 2' -f -a '@FIRSTS@'
@SECONDS@
@OPTIONS@
complete -c bench-keys -f -a "@KEYS@"
complete -c bench-play -n 'test (__bench_words) -gt 1' -f -a "@KEYS@"
"""
SECOND_IN_FISH = """\
complete -c bench -n '__fish_seen_subcommand_from help; and test (__bench_words) = 3; and contains @FIRST@ (commandline -opc)' -f \\
    -a '@WORDS@'
"""
FILES = {"bash": BASH, "zsh": ZSH, "fish": FISH}


def jobs() -> dict[str, list[str]]:
    """Returns the commands of the program and of the launcher, each with its options."""
    usages = re.findall(r"^    bench (\w+)(.*)$", section_of("DECK.md", "The program"), re.M)
    return {name: re.findall(r"--[a-z-]+", rest) for name, rest in usages} | LAUNCHER


def deck_commands() -> dict[str, list[str]]:
    """Returns the commands of decks: for each first word its second words, such as `cpu` for `show`."""
    found: dict[str, list[str]] = {}
    for cells in tables_of(section_of("DECK.md", "Commands"))[0]:
        first, *second = begin(COMMAND, codes_of(cells[0])[0])[0].split()
        found[first] = found.get(first, []) + second
    return found


def tools() -> dict[str, list[str]]:
    """Returns the options of each tool for users, from the usage in its help."""
    found = {}
    for name in sorted(os.listdir(TOOLS)):
        path = os.path.join(TOOLS, name)
        if f"tools/{name}" not in FOR_CONTRIBUTORS and os.path.isfile(path) and os.access(path, os.X_OK):
            with open(os.path.join(TOP, module_of(name)), encoding="utf-8") as file:
                text = ast.get_docstring(ast.parse(file.read())) or ""
            usage = text.split("usage:")[1].split("\n\n")[0]
            found[f"bench-{name}"] = [*dict.fromkeys(re.findall(r"--[a-z]+(?:-[a-z]+)*", usage)), "--help"]
    return found


def lines(pattern: str, pairs: Iterable[tuple[str, list[str]]]) -> str:
    """Returns a line for each pair of a word and a list of words, joined. A pair without words is skipped."""
    return "\n".join(pattern.format(first, " ".join(words)) for first, words in pairs if words)


def quoted(word: str) -> str:
    """Returns a word for a shell, in quotes if it has signs."""
    return word if re.fullmatch(r"[A-Za-z0-9]+", word) else f"'{word}'"


def option_in_fish(command: str, option: str, job: Optional[str]) -> str:
    """Returns the line of an option for fish."""
    words = ["complete", "-c", command, *(["-n", "'__fish_seen_subcommand_from", f"{job}'"] if job else []), "-l", option[2:]]
    return " ".join([*words, *(["-x", "-a", f"'{' '.join(VALUES[option])}'"] if option in VALUES else [])])


def completions(shell: str) -> str:
    """Returns the completions of a shell."""
    of_jobs, of_tools, of_decks = jobs(), tools(), deck_commands()
    firsts = dict.fromkeys([*(name for name in of_jobs if name not in LAUNCHER), *of_decks])
    words = {"JOBS": " ".join(of_jobs), "FIRSTS": " ".join(firsts), "NAMES": " ".join(of_tools), "KEYS": " ".join(map(quoted, KEYS))}
    if shell == "bash":
        words["NAMES"] = " ".join(f"{name} tools/{name[6:]}" for name in of_tools)
        words["KEYS"] = " ".join(KEYS)
        words["VALUES"] = lines("        {}) echo '{}' ;;", VALUES.items())
        words["OPTIONS"] = lines("        {}) echo '{}' ;;", [*of_jobs.items(), *of_tools.items()])
        words["SECONDS"] = lines("            3{}) words='{}' ;;", of_decks.items())
    elif shell == "zsh":
        words["VALUES"] = lines("    {}) compadd -- {}; return ;;", VALUES.items())
        words["SECONDS"] = lines("                4{}) compadd -- {} ;;", of_decks.items())
        words["JOB_OPTIONS"] = lines("            {}) words_of=({}) ;;", of_jobs.items())
        words["TOOL_OPTIONS"] = lines("    {}) words_of=({}) ;;", of_tools.items())
    else:
        words["JOBS"] = " ".join(name for name in of_jobs if name not in ("--help", "--version"))
        words["SECONDS"] = "".join(SECOND_IN_FISH.replace("@FIRST@", first).replace("@WORDS@", " ".join(second))
                                   for first, second in of_decks.items() if second).rstrip()
        options = [option_in_fish("bench", option, job) for job, found in of_jobs.items() for option in found]
        options += [option_in_fish(name, option, None) for name, found in of_tools.items() for option in found]
        words["OPTIONS"] = "\n".join([*options, *(f"complete -c bench -l {option[2:]}" for option in ("--help", "--version"))])
    return re.sub("@([A-Z_]+)@", lambda found: words[found[1]], FILES[shell])


def main(words: list[str]) -> int:
    """Prints the completions of a shell. Returns the status."""
    if words in (["-h"], ["--help"]):
        print(__doc__.strip())
        return 0
    if len(words) != 1 or words[0] not in FILES:
        found = f"'{' '.join(words)}'" if words else "nothing"
        print(f"completions: found {found}, expected bash, zsh or fish; see --help", file=sys.stderr)
        return 2
    print(completions(words[0]), end="")
    return 0
