"""What the commands share: their texts are read, and a fault is a line on standard error and status 2."""

from __future__ import annotations

import os
import sys
from pathlib import Path
from typing import Callable, TypeVar

from .lines import BadText

STATUS_FAULT = 2

Told = TypeVar("Told")


class Fault(Exception):
    """A fault of what was handed in, as it is to be told."""


def read_told(path: str, read: Callable[[str], Told]) -> Told:
    """What is read of the text of a file, or of standard input for `-`. A bad line is told with the file's name.

    Bytes that are no text are read, and shown, as their numbers."""
    try:
        data = sys.stdin.buffer.read() if path == "-" else Path(path).read_bytes()
    except OSError as error:
        raise Fault(f"{path}: {error.strerror}") from error
    try:
        return read(data.decode("utf-8", "backslashreplace"))
    except BadText as bad:
        raise Fault(f"{'standard input' if path == '-' else path}, {bad}") from bad


def write_text(path: str, text: str) -> None:
    """Makes the file of this text."""
    try:
        Path(path).write_text(text, encoding="utf-8")
    except OSError as error:
        raise Fault(f"{path}: {error.strerror}") from error


def run_command(name: str, command: Callable[[], int]) -> int:
    """The status of a command. A fault is told on standard error; a reader that went away ends it as well."""
    try:
        status = command()
        sys.stdout.flush()
        return status
    except Fault as fault:
        print(f"{name}: {fault}", file=sys.stderr)
    except BrokenPipeError:
        os.dup2(os.open(os.devnull, os.O_WRONLY), sys.stdout.fileno())
    return STATUS_FAULT
