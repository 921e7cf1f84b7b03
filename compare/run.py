#!/usr/bin/env python3
"""run.py SRC_FOLDER

Runs compare/frames.txt through the original Rust of SRC_FOLDER, and writes what our program is held to:
crates/replay/stdin, the script, and crates/replay/stdout, the answers. An answer is the Rust's, or at a line
that is marked as a difference (`#! ANSWER -- reason` below it) the marked one. Our program is not run here.
"""
import os
import subprocess
import sys
import tempfile

sys.dont_write_bytecode = True
from build import HERE, build, read, write

CRATE = os.path.join(os.path.dirname(HERE), "crates", "replay")
MARK = "#! "


def split_script(text):
    """The script without marks, its commands as (line number, command), and the marked answer by line number."""
    script, commands, marked = [], [], {}
    for at, line in enumerate(text.splitlines(), 1):
        if line.startswith(MARK):
            answer, dash, reason = line[len(MARK):].partition(" -- ")
            if not dash or not reason or not commands or commands[-1][0] != at - 1:
                sys.exit(f"line {at}: a mark has an answer and a reason, and stands below its command")
            marked[at - 1] = answer
            continue
        script.append(line)
        if line.strip() and not line.lstrip().startswith("#"):
            commands.append((at, line))
    return script, commands, marked


def expect(commands, marked, answers):
    """The answers that our program has to give."""
    if len(commands) != len(answers):
        sys.exit(f"{len(commands)} commands and {len(answers)} answers")
    expected = []
    for (at, command), answer in zip(commands, answers):
        if marked.get(at) == answer:
            sys.exit(f"line {at}: marked as a difference, and the Rust answers the same: {command}")
        expected.append(marked.get(at, answer))
    return expected


def main(src):
    script, commands, marked = split_script(read(os.path.join(HERE, "frames.txt")))
    text = "\n".join(script) + "\n"
    with tempfile.TemporaryDirectory() as out:
        run = subprocess.run([build(src, out)], input=text, capture_output=True, text=True, check=True)
    expected = expect(commands, marked, run.stdout.splitlines())
    write(os.path.join(CRATE, "stdin"), text)
    write(os.path.join(CRATE, "stdout"), "\n".join(expected) + "\n")
    print(f"{len(commands)} lines: {len(commands) - len(marked)} have the Rust's answer, {len(marked)} are marked as differences")


if __name__ == "__main__":
    if len(sys.argv) != 2:
        sys.exit(__doc__)
    main(sys.argv[1])
