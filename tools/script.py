#!/usr/bin/env python3
"""Makes the bytes of a replay script from a readable text.

  tools/script.py TEXT > SCRIPT     the script that the text stands for
  tools/script.py --check           each example.txt under crates/replay stands for the `stdin` beside it

A line of the text is one of these; what follows a # is not read.

  header CELLS PROCESSES SEGMENTS FILES B GUARD SUBTYPES     the guard cell and 1, or 0
  cell SECURITY INTEGRITY COMPARTMENTS PROCESSES SEGMENTS FILES OWNER GROUP
  subtype CELL OWNER GROUP BITS     after the cells
  CALLER CALL A B C : BUFFER        a call by its name or its code; arguments left out are 0, and so is a buffer
  repeat N CALLER CALL ..           the same call N times
  bytes N N ..                      bytes as they stand, for a script at fault

An argument is a number, or a seid: p2.1, s0.1, f0.1, t0.1 are process 2, segment 0, file 0 and subtype 0 of serial 1.
A buffer is a length, of zeros; `fill`, a length and hex digits, which are repeated; `hex` and hex digits; or `text` and words.
"""
import glob
import os
import re
import sys

ROOT = os.path.join(os.path.dirname(os.path.abspath(__file__)), "..")
CODES = os.path.join(ROOT, "host/src/code.rs")  # the table of the calls' names and codes


def calls():
    with open(CODES) as text:
        table = re.findall(r'^    \w+ = (\d+), "([a-z-]+)",', text.read(), re.MULTILINE)
    return {name: int(code) for code, name in table}


CALLS = calls()
CLASSES = {"p": 4, "s": 5, "f": 129, "t": 6}
NUMBERS = {"header": 7, "cell": 8, "subtype": 4}


def number(word):
    seid = re.fullmatch(r"([psft])(\d+)\.(\d+)", word)
    if seid:
        return (CLASSES[seid[1]] << 24) + (int(seid[2]) << 16) + int(seid[3])
    return int(word)


def groups(v):
    """Seven-bit groups, low group first, the high bit on all but the last."""
    out = bytearray()
    while v >= 128:
        out.append(128 + v % 128)
        v //= 128
    out.append(v)
    return bytes(out)


def numbers(words):
    return b"".join(groups(number(w)) for w in words)


def buffer(words):
    if not words:
        return b""
    if words[0] == "fill":
        length, pattern = int(words[1]), bytes.fromhex("".join(words[2:]))
        return (pattern * length)[:length]
    if words[0] == "hex":
        return bytes.fromhex("".join(words[1:]))
    if words[0] == "text":
        return " ".join(words[1:]).encode()
    (length,) = words
    return bytes(int(length))


def call(words):
    at = words.index(":") if ":" in words else len(words)
    caller, name, *args = words[:at]
    code = CALLS[name] if name in CALLS else int(name)
    bytes_ = buffer(words[at + 1:])
    return numbers([caller, str(code)] + (args + ["0"] * 3)[:3]) + groups(len(bytes_)) + bytes_


def line(words):
    match words[0]:
        case "header" | "cell" | "subtype" as name:
            if len(words) != 1 + NUMBERS[name]:
                sys.exit(f"{name}: {NUMBERS[name]} numbers are asked for: {' '.join(words)}")
            return numbers(words[1:])
        case "repeat":
            return int(words[1]) * call(words[2:])
        case "bytes":
            return bytes(int(w) for w in words[1:])
        case _:
            return call(words)


def script(path):
    with open(path) as text:
        lines = [l.split("#")[0].split() for l in text]
    return b"".join(line(words) for words in lines if words)


def check():
    wrong = 0
    for path in sorted(glob.glob(os.path.join(ROOT, "crates/replay/**/example.txt"), recursive=True)):
        with open(os.path.join(os.path.dirname(path), "stdin"), "rb") as stdin:
            if stdin.read() != script(path):
                print("not the script of its example.txt:", os.path.relpath(stdin.name, ROOT))
                wrong += 1
    return wrong > 0


if sys.argv[1:] == ["--check"]:
    sys.exit(check())
if len(sys.argv) != 2:
    sys.exit(__doc__)
sys.stdout.buffer.write(script(sys.argv[1]))
