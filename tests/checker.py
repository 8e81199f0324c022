"""Asks the program `xcalls_check --prologue` what it says of a text of clients. The program is that of scripts/lib/program."""
import pathlib
import subprocess

import player

TOP = pathlib.Path(__file__).resolve().parents[1]
SPLIT = b"====\n"
SECONDS = 60
STATUSES = {"yes": 0, "no": 1, "untold": 6}


def find_program():
    """The program's path; None if there is none."""
    found = subprocess.run([TOP / "scripts/lib/program", "xcalls_check"], stdout=subprocess.PIPE, stderr=subprocess.DEVNULL, text=True)
    return found.stdout.strip() if found.returncode == 0 else None


def said_by(command, data):
    """What a command prints of its input, with its status where that isn't the one of what it prints."""
    done = subprocess.run(command, input=data, stdout=subprocess.PIPE, stderr=subprocess.DEVNULL, timeout=SECONDS)
    said = done.stdout.decode("latin-1").strip()
    return said if done.returncode == STATUSES.get(said.partition(" ")[0]) else f"status {done.returncode} and {said!r}"


def says(program, prologue, text, words=()):
    """What the program says of a text, by these words behind the flag. A prologue that names no client gets those that tests/player.py finds in the text."""
    whole = player.with_clients(prologue, text)
    return said_by([program, "--prologue", *words], whole + (b"" if whole.endswith(b"\n") else b"\n") + SPLIT + text)
