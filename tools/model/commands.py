"""The commands of files of cases, by modules. A module has a table `COMMANDS`: names, and functions
of the room and of the words behind the name that return the result. What the library does is asked of
`room.by`; so the model and the library answer by the same text."""

import change_cases
import check_cases
import data_cases
import filter_cases
import frame_cases
import given_cases
import hash_cases
import index_cases
import merge_cases
import part_cases
import program_cases
import run_cases
from texts import Refused
from words import Fault

MODULES = [
    given_cases,
    hash_cases,
    data_cases,
    index_cases,
    check_cases,
    frame_cases,
    filter_cases,
    run_cases,
    change_cases,
    merge_cases,
    part_cases,
    program_cases,
]

MARK = " =>"


def table():
    """Returns the functions of all commands by their names."""
    found = {}
    for module in MODULES:
        for name, function in module.COMMANDS.items():
            if name in found:
                raise ValueError(f"two commands {name}")
            found[name] = function
    return found


class Unknown(Exception):
    """A command that is none."""


def result_of(known, room, command):
    """Returns the result of a command, of those that are known."""
    words = command.split()
    if not words or words[0] not in known:
        raise Unknown("no such command")
    try:
        return known[words[0]](room, words[1:])
    except Fault as fault:
        return str(fault)
    except Refused as refused:
        return f"Refused({refused})"


class Tally:
    """How many cases passed, and how many failed."""

    def __init__(self):
        self.passed, self.failed = 0, 0

    def count(self, place, command, wanted, found):
        """Counts a case, and prints it if it failed."""
        if wanted == found:
            self.passed += 1
        else:
            self.fail(place, command, f"{found[:200]}, not {wanted[:200]}")

    def fail(self, place, command, why):
        """Counts a case that failed, and prints it."""
        self.failed += 1
        print(f"{place}: {command[:200]} => {why}")

    def end(self):
        """Prints the last line. Returns the status: 1 if a case failed, or if there was none."""
        print(f"{self.passed} passed, {self.failed} failed")
        return 1 if self.failed or not self.passed else 0
