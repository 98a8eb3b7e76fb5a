"""What the tools share: how they run, and what they read: files, and standard input as `-`."""

from __future__ import annotations

import signal
import sys
from typing import Callable


def run_tool(main: Callable[[], int]) -> None:
    """Runs a tool. Where its reader has had enough, as `head` has, it ends without a word."""
    signal.signal(signal.SIGPIPE, signal.SIG_DFL)
    sys.exit(main())


def read_file(tool: str, name: str) -> bytes:
    """The bytes of a file. One that can't be read ends the tool with status 2."""
    try:
        if name == "-":
            return sys.stdin.buffer.read()
        with open(name, "rb") as file:
            return file.read()
    except OSError as fault:
        print(f"{tool}: {shown_name(name)}: {fault.strerror}", file=sys.stderr)
        sys.exit(2)


def shown_name(name: str) -> str:
    """The name of a file as messages have it."""
    return "<stdin>" if name == "-" else name
