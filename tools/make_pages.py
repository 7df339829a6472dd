#!/usr/bin/env python3
"""Writes the completion for bash and the man page of `msb` from tools/launcher/words.py.

usage: tools/make_pages.py [--check]

With --check nothing is written; the status is 1 where a page is not what would be written.
"""

import sys
from pathlib import Path

TOP = Path(__file__).resolve().parent.parent
sys.path.insert(0, str(TOP / "tools" / "launcher"))

import words  # noqa: E402

COMPLETION = """\
# Completion of `msb` for bash: source tools/launcher/msb.bash
# Made by tools/make_pages.py from tools/launcher/words.py.

_msb() {
  local word=${COMP_WORDS[COMP_CWORD]} before=${COMP_WORDS[COMP_CWORD-1]} action= options= number
  for ((number = 1; number < COMP_CWORD; number++)); do
    case ${COMP_WORDS[number]} in
      %ACTIONS%) action=${COMP_WORDS[number]}; break ;;
    esac
  done
  case $before in
%VALUES%
  esac
  case $action in
    '') COMPREPLY=($(compgen -W '%FIRST%' -- "$word")); return ;;
%OPTIONS%
  esac
  if [[ $word == -* ]]; then
    COMPREPLY=($(compgen -W "$options" -- "$word"))
  elif [[ $action != trial ]]; then
    compopt -o filenames
    COMPREPLY=($(compgen -f -- "$word"))
  fi
}
complete -F _msb msb
"""


def completion() -> str:
    names = [action.name for action in words.ACTIONS]
    values = {"--show": "low", "--nodes": "1 2 4 8 16 32 64"}
    given = [option.name for option in words.OPTIONS if option.value]
    cases = [f"    {name}) COMPREPLY=($(compgen -W '{text}' -- \"$word\")); return ;;"
             for name, text in values.items()]
    cases.append(f"    {'|'.join(name for name in given if name not in values)}) return ;;")
    options = [f"    {action.name}) options='{' '.join(action.options)}' ;;"
               for action in words.ACTIONS]
    first = " ".join(names + [option.name for option in words.OWN] + ["--help"])
    parts = {"ACTIONS": "|".join(names), "VALUES": "\n".join(cases), "FIRST": first,
             "OPTIONS": "\n".join(options)}
    text = COMPLETION
    for name, part in parts.items():
        text = text.replace(f"%{name}%", part)
    return text


def roff(text: str) -> str:
    """A text for a man page."""
    escaped = text.replace("\\", "\\e").replace("-", "\\-")
    return "\\&" + escaped if escaped.startswith((".", "'")) else escaped


def listed(head: str, text: str) -> str:
    return f".TP\n.B {roff(head)}\n{roff(text)}\n"


def man_page() -> str:
    parts = ['.\\" Made by tools/make_pages.py from tools/launcher/words.py.\n.TH MSB 1\n',
             ".SH NAME\nmsb \\- builds sets of MSBuild projects, with an answer that is proved\n",
             ".SH SYNOPSIS\n.B msb\n[\\-\\-quiet] [\\-\\-time] [\\-\\-unproved] "
             "ACTION PROJECT [OPTION ..]\n",
             f".SH DESCRIPTION\n{roff(words.PROJECT_IS)}\n", ".SH ACTIONS\n"]
    parts += [listed(f"{action.name} {action.operand}", action.meaning) for action in words.ACTIONS]
    parts.append(".SH OPTIONS\nEach stands at most once, in any order.\n")
    for option in words.OPTIONS:
        told = f"{option.meaning} ({words.taken_by(option)}), as in {option.example}"
        parts.append(listed(words.shown(option), told))
    parts.append(".SH WORDS OF THE LAUNCHER\nThey stand before the action.\n")
    parts += [listed(option.name, option.meaning) for option in words.OWN]
    parts.append(".SH EXIT STATUS\n")
    parts += [listed(status, meaning) for status, meaning in words.STATUSES]
    parts.append(".SH EXAMPLES\n")
    parts += [listed(command, meaning) for command, meaning in words.EXAMPLES]
    return "".join(parts)


def pages() -> dict[Path, str]:
    return {TOP / "tools" / "launcher" / "msb.bash": completion(),
            TOP / "docs" / "msb.1": man_page()}


def main() -> int:
    if sys.argv[1:] not in ([], ["--check"]):
        print(__doc__.split("\n")[2], file=sys.stderr)
        return 2
    status = 0
    for path, text in pages().items():
        if not sys.argv[1:]:
            path.write_text(text)
        elif not path.is_file() or path.read_text() != text:
            print(f"{path.relative_to(TOP)} is not what tools/make_pages.py writes")
            status = 1
    return status


if __name__ == "__main__":
    sys.exit(main())
