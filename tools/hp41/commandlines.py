"""A parser of command lines that also says which option a wrong one may be."""
from __future__ import annotations

import argparse
import re
import sys
from typing import NoReturn

HELP = ("-h", "--help", "-?", "-help", "--usage")


class Parser(argparse.ArgumentParser):
    """Parses a command line. For an option that does not exist, the error names the one that is most like it."""

    def error(self, message: str) -> NoReturn:
        """Ends the tool with status 2, after the usage and the error."""
        super().error(message + self.meant(message, sys.argv[1:]))

    def meant(self, message: str, words: list[str]) -> str:
        """Returns a hint on the options in the words of a command line; an empty text if there is none."""
        if any(word in HELP for word in words):
            return f": tools/{self.prog} --help prints all options"
        unknown = re.search(r"unrecognized arguments:(?: [^-]\S*)* (-\S+)", message)
        if not unknown:
            return ""
        name = unknown[1].partition("=")[0]
        own, others = self.options_for(words), self.commands()
        owners = [command for command, parser in others.items() if name in parser.names()]
        if owners and name not in own:
            return f": {name} is for {' and '.join(owners)}"
        near = self.nearest(name, own)
        return f": did you mean {near}?" if near and near != name else ""

    @staticmethod
    def nearest(name: str, options: list[str]) -> str:
        """Returns the option that is most like another one; an empty text if none is, or if one letter stands for several."""
        # Only errors need this module.
        from difflib import get_close_matches
        bare = name.lstrip("-").lower()
        begun = [option for option in options if option[2:].startswith(bare)]
        if len(bare) == 1 or begun:
            return begun[0] if len(begun) == 1 else ""
        return next(iter(get_close_matches(f"--{bare}", options, 1)), "")

    def names(self) -> list[str]:
        """Returns the options of this parser."""
        return [name for action in self._actions for name in action.option_strings]

    def commands(self) -> dict[str, Parser]:
        """Returns the parsers of the commands, by their names."""
        return {name: parser for action in self._actions if isinstance(action, argparse._SubParsersAction)
                for name, parser in action.choices.items()}

    def options_for(self, words: list[str]) -> list[str]:
        """Returns the options that the command in some words has."""
        chosen = next((self.commands()[word] for word in words if word in self.commands()), None)
        return [*self.names(), *(chosen.names() if chosen else [])]
