#!/usr/bin/env python3
"""Compares the cases of crates/pa_rows/src/tables.rt with what QEMU (user mode) makes of the same words, and the words with
those of llvm-mc. It is no part of the gate. Where a tool is missing it says so and ends.

usage: tools/rows-against-qemu.py
"""
import pathlib
import re
import shutil
import struct
import subprocess
import sys
import tempfile

CRATE = pathlib.Path(__file__).parent.parent / "crates/pa_rows/src"
GIVEN = 0x1_0000_0000
DATA = 0x20_0000
CONDITIONS = "eq ne cs cc mi pl vs vc hi ls ge lt gt le al nv".split()

# Writes 80 bytes from DATA on, and ends: Linux's calls in the place of the machine's.
ENDING = ["movz x0, #1", "movz x1, #0x20, lsl #16", "movz x2, #80", "movz x8, #64", "svc #0"]
ENDING += ["movz x0, #0", "movz x8, #93", "svc #0"]


def llvm(text):
    """A row in LLVM's spelling."""
    name, _, operands = text.partition(" ")
    parts = operands.split(", ") if operands else []
    if name in ("ldrw", "strw"):
        name = name[:3]
        parts[0] = "w" + parts[0][1:]
    elif name in ("ldrb", "strb", "ldrh", "strh"):
        parts[0] = "w" + parts[0][1:]
    elif name == "csinc":
        parts[-1] = CONDITIONS[int(parts[-1][1:])]
    elif name in ("lslv", "lsrv", "asrv"):
        name = name[:3]
    elif name in ("b", "bl", "bcond", "cbz", "cbnz"):
        parts[-1] = f"#{4 * int(parts[-1][1:])}"
        if name == "bcond":
            name = "b." + CONDITIONS[int(parts.pop(0)[1:])]
    elif name == "adrp":
        parts[-1] = f"#{4096 * int(parts[-1][1:])}"
    return f"{name} {', '.join(parts)}".strip()


def assembled(folder, texts):
    """The words of these lines."""
    made, raw = folder / "words.o", folder / "words"
    source = "\n".join(map(llvm, texts)) + "\n"
    command = ["llvm-mc", "-triple=aarch64-linux-gnu", "-mattr=+v8.3a", "-filetype=obj", "-o", made]
    subprocess.run(command, input=source.encode(), check=True)
    subprocess.run(["llvm-objcopy", "-O", "binary", "-j", ".text", made, raw], check=True)
    return [word for (word,) in struct.iter_unpack("<I", raw.read_bytes())]


def array(text, name):
    """The words of an array of the crate, and of its cells."""
    body = re.search(rf"{name}: \[u\d+; \d+\] = \[(.*?)\];", text, re.S).group(1)
    return [int(word, 16) for word in re.findall(r"^ *(0x[0-9a-f_]+),", body, re.M)]


def program(words, given, cells):
    """An executable that holds these words behind the given numbers, and cells with room behind them."""
    code = struct.pack("<4Q", *given) + b"".join(struct.pack("<I", word) for word in words)
    data = struct.pack("<4Q", *cells) + bytes(48)
    head = b"\x7fELF" + bytes([2, 1, 1, 0]) + bytes(8)
    head += struct.pack("<HHIQQQIHHHHHH", 2, 183, 1, GIVEN + 32, 64, 0, 0, 64, 56, 2, 0, 0, 0)
    head += struct.pack("<IIQQQQQQ", 1, 5, 0x1000, GIVEN, GIVEN, len(code), len(code), 0x1000)
    head += struct.pack("<IIQQQQQQ", 1, 6, 0x2000, DATA, DATA, len(data), 0x1000, 0x1000)
    return (head.ljust(0x1000, b"\0") + code).ljust(0x2000, b"\0") + data


def value(text):
    return {"MAX": 2**64 - 1, "TOP": 2**63, "true": 1, "false": 0}.get(text, None) if text.isalpha() else int(text, 0)


def cases(text, name):
    """A table's cases: text, word, given, and the values behind them as one list."""
    body = re.search(rf"const {name}: .*? = \[\n(.*?)\n\];", text, re.S).group(1)
    for row, word, given, behind in re.findall(
        r'\(\s*"([^"]*)",\s*(0x\w+),\s*\[([^\]]*)\],\s*(.*?),?\s*\),', body, re.S
    ):
        yield row, int(word, 0), *([value(x) for x in re.findall(r"\w+", part)] for part in (given, behind))


def shown(name, left):
    """Of the ten numbers, those that a table has."""
    *cells, x0, x1, link, goes, sp, flags = left
    kept = {
        "COMPUTES": [x0, flags],
        "LOADS": [x0, x1],
        "STORES": cells,
        "BRANCHES": [1 - goes, link],
        "SPS": [sp],
    }
    return kept[name]


def main():
    for tool in ("llvm-mc", "llvm-objcopy", "qemu-aarch64"):
        if shutil.which(tool) is None:
            sys.exit(f"rows-against-qemu: {tool} is missing")
    around, tables = (CRATE / "program.rt").read_text(), (CRATE / "tables.rt").read_text()
    before, behind, cells = (array(around, name) for name in ("BEFORE", "BEHIND", "CELLS"))
    count, wrong = 0, 0
    with tempfile.TemporaryDirectory() as name:
        folder = pathlib.Path(name)
        ending = assembled(folder, ENDING)
        file = folder / "case"
        for table in ("COMPUTES", "LOADS", "STORES", "BRANCHES", "SPS"):
            for row, word, given, values in cases(tables, table):
                count += 1
                words = before + [word] + behind[:16] + ending
                file.write_bytes(program(words, given, cells))
                file.chmod(0o755)
                ran = subprocess.run(["qemu-aarch64", "-cpu", "max", file], capture_output=True, timeout=10)
                left = struct.unpack("<10Q", ran.stdout) if len(ran.stdout) == 80 else None
                if assembled(folder, [row]) != [word] or left is None or shown(table, left) != values:
                    wrong += 1
                    print(f"{table} {row} {given}: {values} here, {left and shown(table, left)} there")
    print(f"{count} cases, {wrong} differ")
    sys.exit(wrong > 0)


if __name__ == "__main__":
    main()
