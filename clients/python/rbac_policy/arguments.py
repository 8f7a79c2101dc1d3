"""What the command lines have in common."""

import argparse
import io
import os
import sys
from collections.abc import Callable, Sequence

from .front import Access, Front
from .in_file import InFile
from .model import Stop
from .server import Server
from .target import Target


def add_target(parser: argparse.ArgumentParser) -> None:
    """Adds the options that say which office is meant."""
    group = parser.add_argument_group("the office")
    which = group.add_mutually_exclusive_group(required=True)
    which.add_argument("--front", metavar="ADDRESS", help="a front: http://HOST:PORT, https://HOST:PORT or unix:PATH")
    which.add_argument("--server", metavar="ADDRESS", help="rbac serve, with a copy of its office at --copy")
    which.add_argument("--file", metavar="OFFICE", help="the file of an office that no program has open")
    group.add_argument("--copy", metavar="FILE", help="a copy of the office of --server")
    group.add_argument("--token-file", metavar="FILE", help="a file with the token of the caller")
    words = "send the token to other machines without TLS too, over a network that encrypts by itself"
    group.add_argument("--token-over-http", action="store_true", help=words)
    group.add_argument("--ca", metavar="FILE", help="the authorities that may have issued the server's certificate")
    group.add_argument("--certificate", metavar="FILE", help="the caller's own certificate")
    group.add_argument("--key", metavar="FILE", help="the key of that certificate")
    group.add_argument("--reason", metavar="TEXT", help="why the office is changed: the front records it")


def target_of(arguments: argparse.Namespace) -> tuple[Target, bool]:
    """The office that the options mean, and whether it shows the names of sessions."""
    if (arguments.copy is None) != (arguments.server is None):
        raise Stop("--server and --copy belong together")
    if arguments.file is not None:
        return InFile(arguments.file), True
    address = arguments.front or arguments.server
    access = Access(
        address, arguments.token_file, arguments.ca, arguments.certificate, arguments.key, arguments.token_over_http
    )
    if arguments.server is not None:
        return Server(access, arguments.copy), True
    return Front(access, arguments.reason), False


def run(main: Callable[[Sequence[str]], int], name: str) -> None:
    """Runs a command line. Its status is 2 if nothing could be done. Each line is written at once: nothing follows one that can't be."""
    for stream in (sys.stdout, sys.stderr):
        if isinstance(stream, io.TextIOWrapper):
            stream.reconfigure(encoding="utf-8", errors="backslashreplace", line_buffering=True)
    try:
        if sys.stdout is None:
            raise Stop("standard output is closed: nothing was done")
        status = main(sys.argv[1:])
        sys.stdout.flush()
    except Stop as stop:
        print(f"{name}: {stop}", file=sys.stderr)
        status = 2
    except OSError as error:  # What was printed is incomplete.
        # Nothing more is written: it would fail again when the process ends, and change its status.
        os.dup2(os.open(os.devnull, os.O_WRONLY), sys.stdout.fileno())
        if not isinstance(error, BrokenPipeError):
            print(f"{name}: {error}", file=sys.stderr)
        status = 1
    except KeyboardInterrupt:
        print(f"{name}: interrupted. What was answered is done; the same command line does the rest.", file=sys.stderr)
        status = 1
    sys.exit(status)
