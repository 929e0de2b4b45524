"""What the tools share: how they ask the program, how they read a catalogue, and the tokens of its texts."""

import json
import os
import re
import signal
import subprocess
import sys
import tomllib

TOP = os.path.dirname(os.path.dirname(os.path.realpath(__file__)))
ESTO = os.environ.get("ESTO", f"{TOP}/esto")
TOKEN = re.compile(r"\s+|#[^\n]*|[A-Za-z]\w*|_\d+|_|'(?:[^']|'')*'|-?\d+|:-|\*\*|.", re.A)

# A pipe that is closed, as by `head`, ends a tool without a word.
signal.signal(signal.SIGPIPE, signal.SIG_DFL)


def bytes_of(*words):
    """Runs the program with the words, and returns its status and the bytes that it puts."""
    try:
        ran = subprocess.run([ESTO, *words], stdout=subprocess.PIPE)
    except OSError as fault:
        sys.exit(f"{ESTO} cannot be run: {fault.strerror}")
    return ran.returncode, ran.stdout


def ask(*words):
    """Runs the program with the words, and returns its status and its text."""
    status, text = bytes_of(*words)
    return status, text.decode(errors="replace")


def checked(file, *allowed):
    """Returns the catalogue in a file, as a table. Where `check` refuses it, and not by a line that begins with an allowed
    one, that line is printed, and the tool ends with that status."""
    status, text = ask("check", file)
    if status and not text.startswith(allowed):
        print(text, end="")
        sys.exit(status)
    return toml_of(file)


def toml_of(file):
    """Returns the table of a TOML file; a leading byte-order mark is dropped, as the program drops it."""
    try:
        with open(file, encoding="utf-8-sig", newline="") as it:
            return tomllib.loads(it.read())
    except (OSError, ValueError) as fault:
        sys.exit(f"{file} cannot be read: {fault}")


def tokens(text):
    return [it for it in TOKEN.findall(text) if not it.isspace() and not it.startswith("#")]


def parts(text):
    """Returns the name, the terms in parentheses, and the tokens after `:-` of an atom or a view."""
    found = tokens(text)
    close = found.index(")")
    return found[0], [it for it in found[2:close] if it != ","], found[close + 2 :]


def documents(owner):
    """Returns the documents in the file of a dataset or a fragment, each with its place: a line, or an item."""
    with open(owner["file"], encoding="utf-8-sig", newline="") as it:
        text = it.read()
    if owner.get("layout", "lines") == "array":
        return [(f"item {place}", it) for place, it in enumerate(json.loads(text), 1)]
    lines = enumerate(text.split("\n"), 1)
    return [(f"line {place}", json.loads(it)) for place, it in lines if it.strip(" \t\r")]
