#!/usr/bin/env python3
"""build.py SRC_FOLDER OUT_FOLDER

Builds OUT_FOLDER/driver: the original Rust of SRC_FOLDER under compare/driver.rs.
SRC_FOLDER has src/protocol.rs and src/rs/wire.rs. Nothing of them stands in this folder: both files are
compiled whole, and only their imports of std::os::unix::io are sent to the stand-in for the descriptor book.
"""
import os
import re
import subprocess
import sys

HERE = os.path.dirname(os.path.abspath(__file__))

ORIGINALS = {"protocol.rs": "src/protocol.rs", "wire.rs": "src/rs/wire.rs"}
OWN = {"main.rs": "driver.rs", "book.rs": "standins/book.rs"}
# crates that the originals import, each as far as they use it
CRATES = ["smallvec", "wayland_sys"]

# `use std::os::unix::io::{..};`, and the same as the last part of `use std::{.., os::unix::io::NAME};`
WHOLE_IMPORT = re.compile(r"^use std::os::unix::io::(.*);$", re.MULTILINE)
LAST_IMPORT = re.compile(r"^use std::\{(.*), os::unix::io::(\w+)\};$", re.MULTILINE)

RUSTC = ["rustc", "--edition", "2021", "-O", "-C", "debug-assertions=on", "-A", "warnings"]


def read(path):
    with open(path, encoding="utf8") as file:
        return file.read()


def write(path, text):
    with open(path, "w", encoding="utf8") as file:
        file.write(text)


def redirect(name, text):
    """The text with its one import of descriptors redirected."""
    text, whole = WHOLE_IMPORT.subn(r"use crate::book::\1;", text)
    text, last = LAST_IMPORT.subn(r"use std::{\1}; use crate::book::\2;", text)
    if whole + last != 1:
        sys.exit(f"{name}: {whole + last} imports of descriptors, where one was expected")
    return text


def build(src, out):
    """The path of the driver."""
    work = os.path.join(out, "sources")
    os.makedirs(work, exist_ok=True)
    for name, path in ORIGINALS.items():
        write(os.path.join(work, name), redirect(name, read(os.path.join(src, path))))
    for name, path in OWN.items():
        write(os.path.join(work, name), read(os.path.join(HERE, path)))
    externs = []
    for crate in CRATES:
        source = os.path.join(HERE, "standins", crate + ".rs")
        subprocess.check_call(RUSTC + ["--crate-type", "rlib", "--crate-name", crate, source, "--out-dir", work])
        externs += ["--extern", f"{crate}={work}/lib{crate}.rlib"]
    driver = os.path.join(out, "driver")
    subprocess.check_call(RUSTC + ["--crate-name", "driver", os.path.join(work, "main.rs"), "-o", driver] + externs)
    return driver


if __name__ == "__main__":
    if len(sys.argv) != 3:
        sys.exit(__doc__)
    print(build(sys.argv[1], sys.argv[2]))
