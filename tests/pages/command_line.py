"""The command line as the program says it: its commands and what they are for, their arguments, the numbers among these, and the
version."""

import functools
import re
import subprocess

from program.bench import PROGRAM, SECONDS

# The letters that pages use for the numbers.
LETTERS = {"port": "P", "limit": "N"}

# What the program adds to its commands, and to the options of each.
HELP_COMMAND, HELP_OPTION, VERSION_OPTION = "help", "-h, --help", "-V, --version"

# A number that is outside each range.
OUTSIDE = "0"


@functools.cache
def run(*words):
    """Runs the program, and returns its status and what it prints."""
    done = subprocess.run([PROGRAM, *words], capture_output=True, text=True, timeout=SECONDS, check=False)
    return done.returncode, done.stdout, done.stderr


def listed(part, *words):
    """What a part of the help of a command lists, in its order, each with what it is for. A help may lack the part."""
    _, said, _ = run(*words, "--help")
    found = re.search(rf"^{part}:\n((?:  .*\n)+)", said, re.M)
    return dict(re.findall(r"^ +(\S.*?)  +(\S.*)$", found[1], re.M)) if found else {}


def commands():
    """The commands in their order, each with the text of its help."""
    found = listed("Commands")
    if found.pop(HELP_COMMAND, None) is None:
        raise ValueError("the program lists no commands")
    return found


def options_of(command):
    """The options of a command, as they are written in a command line."""
    found = [re.fullmatch(r"--(\w+)( <\w+>)?", option) for option in listed("Options", command) if option != HELP_OPTION]
    return [f"--{option[1]} {LETTERS[option[1]]}" if option[2] else option[0] for option in found]


def forms():
    """The forms of the command line, in their order: a command with its arguments. A replay has one form for each office."""
    lines = []
    for command in commands():
        words = [*(word.strip("<>[]") for word in listed("Arguments", command)), *options_of(command)]
        lines += [f"{command} {one}" for one in words] if command == "replay" else [" ".join([command, *words])]
    return lines


def options():
    """The options of the command line, as they are written in it."""
    found = [option for command in commands() for option in options_of(command)]
    return [*found, *([VERSION_OPTION] if VERSION_OPTION in listed("Options") else [])]


def version():
    """The version that the program prints."""
    return run("--version")[1].removeprefix("rbac ").strip()


def ranges():
    """The least and the most of each number of the command line, as the program says them when it refuses another one."""
    found = {}
    for name in LETTERS:
        given = [word for one in LETTERS for word in (f"--{one}", OUTSIDE if one == name else "1")]
        status, _, said = run("serve", "office", *given)
        (least, most), *_ = re.findall(rf"'--{name} <{name}>': {OUTSIDE} is not in (\d+)\.\.=(\d+)$", said, re.M)
        if status != 2:
            raise ValueError(f"the status is {status}: {said}")
        found[name] = int(least), int(most)
    return found
