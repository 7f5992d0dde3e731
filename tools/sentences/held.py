"""Programs held to what they write, on standard output and on standard error."""

import os
import pathlib
import shlex
import subprocess

TOP = pathlib.Path(__file__).resolve().parent.parent.parent
faults, count = [], 0


def command(name):
    """The command of a program; OKUBINRAFO_ and its name may give it."""
    return shlex.split(os.environ.get(f"OKUBINRAFO_{name.upper()}", shlex.quote(f"{TOP}/okubinrafo") + f" {name}"))


def held(wrote, expected):
    return wrote == expected


def case(name, words, stdin, folder, answer, sentence):
    """Runs a program and holds both its texts; a changed text has to be seen."""
    global count
    count += 1
    source = {"stdin": stdin} if isinstance(stdin, int) else {"input": stdin}
    ran = subprocess.run(words, cwd=folder, stdout=subprocess.PIPE, stderr=subprocess.PIPE, **source)
    for what, wrote, expected in (("answer", ran.stdout, answer), ("sentence", ran.stderr, sentence)):
        if not held(wrote, expected):
            faults.append(f"{name}: the {what} is\n{wrote!r}, expected\n{expected!r}")
        elif held(wrote, expected[:-1] + b"?") or held(wrote, expected[1:] + b"?"):
            faults.append(f"{name}: a changed {what} isn't seen")
