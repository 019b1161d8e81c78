#!/usr/bin/env python3
"""Compares the words of every row of crates/pa_a64/src/table.rt, with many operands each, with those that llvm-mc gives
for arm64e. It is no part of the gate. Where llvm-mc is missing it says so and ends.

usage: tools/a64-against-llvm.py [OPERANDS a row, 200 if left out]
"""
import pathlib
import random
import re
import shutil
import subprocess
import sys

TABLE = pathlib.Path(__file__).parent.parent / "crates/pa_a64/src/table.rt"
CONDITIONS = "eq ne cs cc mi pl vs vc hi ls ge lt gt le al nv".split()
LINE = re.compile(
    r"(\w+)\s+(?:=\s*(0x[0-9a-f_]+)|op:\s*\w+\s*\[([^\]]*)\])\s*\{([^}]*)\}", re.S
)
ROW = re.compile(r"(\w+) = (0x[0-9a-f_]+)")
FIELD = re.compile(r"(\w+): (\w+) \[([^\]]*)\]")


def number(text):
    return int(text.replace("_", ""), 16)


def rows():
    """Each row as its line's name, its own name, its fixed bits, and its fields as name, type and pieces."""
    for line, word, several, fields in LINE.findall(TABLE.read_text()):
        fields = [
            (name, kind, [int(part) for part in place.split(",")])
            for name, kind, place in FIELD.findall(fields)
        ]
        for name, base in [(line, word)] if word else ROW.findall(several):
            yield line, name.lower(), number(base), fields


def width(place):
    return place[1] + (place[3] if len(place) == 4 else 0)


def operand(kind, bits):
    """An operand of this many bits: often an extreme one."""
    top = (1 << bits) - 1
    value = random.choice([0, 1, top, top >> 1, (top >> 1) + 1, random.randint(0, top), random.randint(0, top)])
    if kind in ("i8", "i16", "i32") and value > top >> 1:
        value -= top + 1
    return value


def word_of(base, fields, values):
    word = base
    for name, _, place in fields:
        bits = values[name] % (1 << width(place))
        if len(place) == 4:
            word |= bits >> place[3] << place[0] | bits % (1 << place[3]) << place[2]
        else:
            word |= bits << place[0]
    return word


def x(number):
    return "xzr" if number == 31 else f"x{number}"


def w(number):
    return "wzr" if number == 31 else f"w{number}"


def x_or_sp(number):
    return "sp" if number == 31 else f"x{number}"


def text_of(line, row, v):
    """The row as LLVM's assembler reads it."""
    if line == "MoveWide":
        return f"{row} {x(v['rd'])}, #{v['imm']}, lsl #{16 * v['hw']}"
    if line in ("SumImmediate", "SubsImmediate"):
        name, to = ("subs", x(v["rd"])) if line == "SubsImmediate" else (row, x_or_sp(v["rd"]))
        return f"{name} {to}, {x_or_sp(v['rn'])}, #{v['imm']}" + (", lsl #12" if v["shifted"] else "")
    if line in ("Sum", "Logical", "Divide", "Shift"):
        return f"{row} {x(v['rd'])}, {x(v['rn'])}, {x(v['rm'])}"
    if line == "MultiplyAdd":
        return f"{row} {x(v['rd'])}, {x(v['rn'])}, {x(v['rm'])}, {x(v['ra'])}"
    if line == "Bitfield":
        return f"{row} {x(v['rd'])}, {x(v['rn'])}, #{v['immr']}, #{v['imms']}"
    if line == "Csinc":
        return f"csinc {x(v['rd'])}, {x(v['rn'])}, {x(v['rm'])}, {CONDITIONS[v['condition']]}"
    if line == "Adrp":
        return f"adrp {x(v['rd'])}, #{4096 * v['pages']}"
    if line in ("LoadStore", "LoadStoreWord", "LoadStoreHalf", "LoadStoreByte"):
        size = {"LoadStore": 8, "LoadStoreWord": 4, "LoadStoreHalf": 2, "LoadStoreByte": 1}[line]
        narrow = line != "LoadStore" and not row.startswith("ldrs")
        name = {"ldrw": "ldr", "strw": "str"}.get(row, row)
        return f"{name} {(w if narrow else x)(v['rt'])}, [{x_or_sp(v['rn'])}, #{size * v['imm']}]"
    if line == "LoadStoreUnscaled":
        return f"{row} {x(v['rt'])}, [{x_or_sp(v['rn'])}, #{v['imm']}]"
    if line == "LoadStorePair":
        return f"{row} {x(v['rt'])}, {x(v['rt2'])}, [{x_or_sp(v['rn'])}, #{8 * v['imm']}]"
    if line == "Branch":
        return f"{row} #{4 * v['words']}"
    if line == "BranchConditional":
        return f"b.{CONDITIONS[v['condition']]} #{4 * v['words']}"
    if line == "CompareBranch":
        return f"{row} {x(v['rt'])}, #{4 * v['words']}"
    if line in ("BranchRegister", "Blraaz"):
        return f"{row} {x(v['rn'])}"
    if line == "BranchAuthenticated":
        return f"{row} {x(v['rn'])}, {x_or_sp(v['rm'])}"
    if line in ("Sign", "Authenticate"):
        return f"{row} {x(v['rd'])}, {x_or_sp(v['rn'])}"
    if line == "Plain":
        return f"{row} {x(v['rd'])}"
    if line == "Pacga":
        return f"pacga {x(v['rd'])}, {x(v['rn'])}, {x_or_sp(v['rm'])}"
    if line == "Exception":
        return f"{row} #{v['imm']}"
    return row


def main():
    if shutil.which("llvm-mc") is None:
        print("llvm-mc is missing: nothing compared")
        return 0
    count = int(sys.argv[1]) if len(sys.argv) > 1 else 200
    random.seed(1)
    texts, words, names = [], [], set()
    for line, row, base, fields in rows():
        names.add((line, row))
        for _ in range(count if fields else 1):
            values = {name: operand(kind, width(place)) for name, kind, place in fields}
            if row == "ldp" and values["rt"] == values["rt2"]:
                continue
            texts.append(text_of(line, row, values))
            words.append(word_of(base, fields, values))
    made = subprocess.run(
        ["llvm-mc", "-triple=arm64e-apple-ios", "-mattr=+v8.3a", "-show-encoding"],
        input="\n".join(texts) + "\n",
        capture_output=True,
        text=True,
        check=False,
    )
    theirs = [
        int.from_bytes(bytes(int(byte, 16) for byte in found.split(",")), "little")
        for found in re.findall(r"encoding: \[([^\]]*)\]", made.stdout)
    ]
    if made.stderr or len(theirs) != len(words):
        print(made.stderr[:2000])
        print(f"llvm-mc gave {len(theirs)} words for {len(words)} lines")
        return 1
    differ = [(t, a, b) for t, a, b in zip(texts, words, theirs) if a != b]
    for text, ours, other in differ[:20]:
        print(f"{text}: {ours:08x} here, {other:08x} by llvm-mc")
    print(f"{len(names)} rows, {len(words)} words compared, {len(differ)} differ")
    return 1 if differ else 0


if __name__ == "__main__":
    sys.exit(main())
