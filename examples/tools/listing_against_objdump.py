#!/usr/bin/env python3
"""Compares what `facechange list` prints of a kernel from gcc with what objdump prints of the same addresses.

usage: listing_against_objdump.py PROGRAM KERNEL VIEWS APP

Each item of the listing must stand at the same address in the disassembly, with the same digits, the same instruction, the
same registers and, for one of 32 bits, the same immediate; each instruction of a listed group must be an item, or lie in a run
of zeros. Without riscv64-linux-gnu-objdump it says so and compares nothing.
"""
import re
import shutil
import subprocess
import sys

OBJDUMP = "riscv64-linux-gnu-objdump"

# What a halfword's own name means: the instruction of 32 bits that does the same. Other names only lose their `c.`.
SHORT_NAMES = {
    "c.addi4spn": "addi",
    "c.addi16sp": "addi",
    "c.nop": "addi",
    "c.li": "addi",
    "c.mv": "add",
    "c.j": "jal",
    "c.jr": "jalr",
    "c.beqz": "beq",
    "c.bnez": "bne",
    "c.lwsp": "lw",
    "c.ldsp": "ld",
    "c.swsp": "sw",
    "c.sdsp": "sd",
}
# The ordering bits of an atomic instruction, which a listing shows by its star alone.
ORDERING = re.compile(r"\.(aq|rl|aqrl)$")
BRANCHES = {"beq", "bne", "blt", "bge", "bltu", "bgeu", "jal"}
UPPER = {"lui", "auipc"}
NO_IMMEDIATE = {"fence"}


def disassembly(kernel):
    """Address to digits, name and operands."""
    text = subprocess.run([OBJDUMP, "-d", "-M", "no-aliases,numeric", kernel], capture_output=True, text=True, check=True)
    items = {}
    for line in text.stdout.split("\n"):
        row = re.match(r"\s+([0-9a-f]+):\s+([0-9a-f]+)\s+(\S+)\s*(.*)$", line)
        if row:
            items[int(row[1], 16)] = (row[2], row[3], re.sub(r"\s*[#<].*", "", row[4]))
    return items


def listing(program, kernel, views, app):
    """The places of the groups, the items at their places, and the places of zeros."""
    text = subprocess.run([program, "list", kernel, views, app], capture_output=True, text=True, check=True)
    groups, items, zeros = [], {}, set()
    for line in text.stdout.split("\n")[:-1]:
        words = line.split(" ")
        place = int(words[0], 16)
        if words[1].startswith("0x"):
            groups.append((place, int(words[1], 16)))
        elif words[1] == "zero":
            zeros.update(range(place, place + 2 * int(words[2]), 2))
        else:
            fields = {name: int(value) for name, value in (word.split("=") for word in words[3:] if "=" in word)}
            items[place] = (words[1], words[2], fields)
    return groups, items, zeros


def registers(operands):
    return sorted(int(number) for number in re.findall(r"\bx(\d+)\b", operands))


def immediate(name, place, operands):
    """The immediate that the operands write, or None where they write none."""
    if name in NO_IMMEDIATE:
        return None
    last = operands.split(",")[-1]
    if name in BRANCHES:
        return int(last, 16) - place
    if name in UPPER:
        value = int(last, 16) << 12
        return value - (1 << 32) if value >= 1 << 31 else value
    number = re.match(r"(-?(?:0x[0-9a-f]+|\d+))(?:\(x\d+\))?$", last)
    return int(number[1], 0) if number else None


def difference(place, item, row):
    """What differs between an item and a row of the disassembly, or None."""
    digits, name, fields = item
    other_digits, other_name, operands = row
    plain = SHORT_NAMES.get(other_name, ORDERING.sub("", other_name.removeprefix("c.")))
    numbers = sorted(fields[key] for key in ("rd", "rs1", "rs2") if key in fields)
    if digits != other_digits:
        return f"digits {digits} and {other_digits}"
    if name != plain:
        return f"{name} and {other_name}"
    if len(digits) == 4:
        return None if set(registers(operands)) <= set(numbers) else f"registers {numbers} and {operands}"
    if numbers != registers(operands):
        return f"registers {numbers} and {operands}"
    if "imm" in fields and fields["imm"] != immediate(name, place, operands):
        return f"immediate {fields['imm']} and {operands}"
    return None


def main():
    if shutil.which(OBJDUMP) is None:
        print(f"no {OBJDUMP}: nothing is compared")
        return
    program, kernel, views, app = sys.argv[1:]
    rows = disassembly(kernel)
    groups, items, zeros = listing(program, kernel, views, app)
    for place, item in items.items():
        if place not in rows:
            sys.exit(f"{place:#x}: not in the disassembly")
        why = difference(place, item, rows[place])
        if why:
            sys.exit(f"{place:#x}: {why}")
    for place in rows:
        listed = place in items or place in zeros
        if not listed and any(start <= place < end for start, end in groups):
            sys.exit(f"{place:#x}: not in the listing")
    print(f"{len(items)} items of {len(groups)} groups are those of the disassembly")


main()
