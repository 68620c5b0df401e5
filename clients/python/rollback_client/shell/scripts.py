"""The commands of the shell itself: help, script, exit."""
from __future__ import annotations

from typing import Iterator

from . import given
from .core import Command, Lines, Shell
from .refusing import Refused, meant


def _help(shell: Shell, rest: str) -> None:
    words = rest.split()
    if not words:
        width = max(len(command.usage) for command in shell.commands.values())
        for each in shell.commands.values():
            shell.output.say(f"  {each.usage.ljust(width)}  {each.means}")
        shell.output.say("help COMMAND has more. A step is named as order-1#3, and a branch's as order-1/2.0#1.")
        return
    command = shell.commands.get(words[0])
    if command is None:
        raise Refused(f"there is no command {words[0]}{meant(words[0], shell.commands)}", "help lists them")
    shell.output.say(command.usage)
    shell.output.say(f"  {command.means}")
    for line in command.more:
        shell.output.say(f"  {line}")


def _lines_of(name: str) -> Iterator[str]:
    try:
        with open(name, encoding="utf-8-sig") as stream:
            return iter(stream.read().rstrip("\n").split("\n"))
    except OSError as fault:
        raise Refused(f"the file {name} can't be read: {fault.strerror}", "look at its name and its rights") from None
    except UnicodeDecodeError as fault:
        raise Refused(f"the file {name} isn't UTF-8, at byte {fault.start}", "save it as UTF-8") from None


def _script(shell: Shell, rest: str) -> None:
    words = rest.split()
    goes_on = "--keep-going" in words
    names = [word for word in words if word != "--keep-going"]
    (name,) = given.exactly(" ".join(names), "script [--keep-going] FILE", 1)
    lines = Lines(_lines_of(name), lambda line: shell.output.say(f"> {line}"))
    shell.begin_script()
    try:
        if not shell.run(lines, stops_at_refusal=not goes_on) and not goes_on:
            raise Refused(f"the script {name} was stopped at this line", "the lines before it are done")
    finally:
        shell.end_script()


def _exit(shell: Shell, rest: str) -> None:
    given.exactly(rest, "exit", 0)
    shell.has_ended = True


COMMANDS = (
    Command("help", "help [COMMAND]", "lists the commands, or says more of one", _help, (), ("command",)),
    Command(
        "script",
        "script [--keep-going] FILE",
        "runs the lines of a file, and stops at the first that is refused",
        _script,
        (
            "Each line is shown before its reply. A line that begins with # is a comment. --keep-going doesn't stop.",
            "Within a script nothing is asked: write -y behind rollback, hold and settle.",
        ),
        ("file",),
    ),
    Command("exit", "exit", "ends the shell", _exit),
    Command("quit", "quit", "ends the shell", _exit),
)
