#!/usr/bin/env python3
"""Converts a table of values to a record, and compares a record with its table.

    convert.py COLUMNS TABLE > RECORD          writes the record
    convert.py --check COLUMNS TABLE RECORD    reads each word of the record back, and compares it with its cell

TABLE is a CSV file: a column a parameter, a row a moment of 100 ms. COLUMNS is a TOML file that tells how each column
goes onto the bus. docs/words.md has the rules of rounding, of values beyond the range and of cells without a value.
It needs Python 3.11 or later, and nothing else.
"""

import csv
import sys
import tomllib
from fractions import Fraction
from math import ceil, floor

# The SSM of a word whose data count, and of the words that say that there are none.
NORMAL = {"disc": 0b00, "bnr": 0b11, "bcd": 0b00}
MINUS = 0b11
NO_DATA = {"ncd": 0b01, "test": 0b10}


class Wrong(Exception):
    """What the user has to mend, in one line."""


# ---- what a cell says


def address(column):
    """What tells one word from another: bus, label, SDI."""
    return column["bus"], int(column["label"], 8), column.get("sdi", 0)


def magnitude_bits(column):
    """The bits of a binary number below its sign."""
    return 29 - column["low"]


def step(column):
    """What the last bit of a number is worth."""
    return Fraction(column["range"], 2 ** magnitude_bits(column)) if column["kind"] == "bnr" else Fraction(1)


def said(column, cell):
    """What the word of a cell says: 0 or 1, a whole number in the unit of the bus, `ncd` or `test`."""
    if cell in NO_DATA:
        return cell
    try:
        value = Fraction(cell) * Fraction(str(column.get("factor", 1)))
    except (ValueError, ZeroDivisionError):
        raise Wrong(f"`{cell}` is no number") from None
    if column["kind"] == "disc":
        if value not in (0, 1):
            raise Wrong(f"`{cell}` is neither 0 nor 1")
        return int(value)
    value = floor(value + Fraction(1, 2))
    is_bcd = column["kind"] == "bcd"
    least, most = (-79999, 79999) if is_bcd else (-column["range"], floor(column["range"] - step(column)))
    if least <= value <= most:
        return value
    match column.get("beyond"):
        case "limit":
            return max(least, min(value, most))
        case "ncd":
            return "ncd"
    raise Wrong(f"{value} isn't from {least} to {most}")


# ---- from a table to a record


def data_and_ssm(column, value):
    """The data bits and the SSM of what a word says."""
    kind = column["kind"]
    if value in NO_DATA:
        return 0, NO_DATA[value]
    if kind == "disc":
        return value << (column["bit"] - 1), NORMAL[kind]
    if kind == "bcd":
        return int(str(abs(value)), 16) << 10, MINUS if value < 0 else NORMAL[kind]
    # A number is read rounded down. With steps of 1 or less the least step that isn't below it is read as it.
    steps = value / step(column)
    raw = ceil(steps) if step(column) <= 1 else floor(steps + Fraction(1, 2))
    return raw % 2 ** (magnitude_bits(column) + 1) << (column["low"] - 1), NORMAL[kind]


def word(group, cells):
    """The 32 bits of a word that carries these cells."""
    if not all(cells):
        raise Wrong("of the discretes of one word all cells are empty, or none is")
    parts = [data_and_ssm(column, said(column, cell)) for column, cell in zip(group, cells)]
    if len({ssm for _, ssm in parts}) > 1:
        raise Wrong("of the discretes of one word all are `ncd`, or all are `test`, or none is")
    _, label, sdi = address(group[0])
    bits = int(f"{label:08b}"[::-1], 2) | sdi << 8 | parts[0][1] << 29
    for data, _ in parts:
        bits |= data
    return bits | (bits.bit_count() + 1) % 2 << 31


def record(columns, rows):
    """The lines of the record: in each moment the words in the order in which COLUMNS first names them."""
    groups = {}
    for column in columns:
        groups.setdefault(address(column), []).append(column)
    for group in groups.values():
        if len(group) > 1 and any(column["kind"] != "disc" for column in group):
            raise Wrong(f"{group[1]['name']}: only discretes share a word")
    for number, row in enumerate(rows, start=2):
        for group in groups.values():
            cells = [row[column["name"]] for column in group]
            if any(cells):
                try:
                    yield f"W {group[0]['bus']} {word(group, cells):08x}"
                except Wrong as wrong:
                    raise Wrong(f"line {number}, {group[0]['name']}: {wrong}") from None
        yield "T"
    yield "E"


# ---- from a record back to the table


def read_back(column, bits):
    """What a word says to a column of the table, or None where it says nothing."""
    ssm, data = bits >> 29 & 3, bits >> 10 & 0x7FFFF
    for name, status in NO_DATA.items():
        if ssm == status:
            return name
    if column["kind"] == "bcd":
        return int(f"{data:x}") * (-1 if ssm == MINUS else 1) if f"{data:x}".isdecimal() else None
    if ssm != NORMAL[column["kind"]]:
        return None
    if column["kind"] == "disc":
        return bits >> (column["bit"] - 1) & 1
    raw = data >> (column["low"] - 11)
    if raw >> magnitude_bits(column):
        raw -= 2 ** (magnitude_bits(column) + 1)
    return raw * column["range"] // 2 ** magnitude_bits(column)


def is_same(column, wanted, found):
    """The same, or with steps above 1 no further apart than a step."""
    are_numbers = isinstance(wanted, int) and isinstance(found, int)
    return abs(wanted - found) <= step(column) if are_numbers and step(column) > 1 else wanted == found


def compare(columns, rows, lines):
    """How many cells the record's words say; raises where a word says something else, is missing or is one too many."""
    moments = [[]]
    for line in lines:
        moments.append([]) if line == "T" else moments[-1].append(line)
    if moments.pop() != ["E"] or len(moments) != len(rows):
        raise Wrong("the record hasn't a moment for each row, or doesn't end with `E`")
    compared = 0
    for number, (row, moment) in enumerate(zip(rows, moments), start=2):
        found = {}
        for line in (line for line in moment if line.startswith("W ")):
            bus, bits = int(line.split()[1]), int(line.split()[2], 16)
            if bits.bit_count() % 2 == 0:
                raise Wrong(f"line {number}: `{line}` has even parity")
            found[bus, int(f"{bits & 255:08b}"[::-1], 2), bits >> 8 & 3] = bits
        for column in columns:
            cell, bits = row[column["name"]], found.get(address(column))
            wanted = said(column, cell) if cell else None
            if not is_same(column, wanted, None if bits is None else read_back(column, bits)):
                raise Wrong(f"line {number}, {column['name']}: the record doesn't say `{cell}`")
            compared += bool(cell)
    return compared


def main(words):
    checks = words[:1] == ["--check"]
    if len(words) != (4 if checks else 2):
        raise Wrong("usage: convert.py COLUMNS TABLE | convert.py --check COLUMNS TABLE RECORD")
    with open(words[checks], "rb") as file:
        columns = tomllib.load(file)["column"]
    with open(words[1 + checks], newline="") as file:
        rows = [{name: (cell or "").strip() for name, cell in row.items()} for row in csv.DictReader(file)]
    if lost := [column["name"] for column in columns if rows and column["name"] not in rows[0]]:
        raise Wrong(f"the table has no column {lost[0]}")
    if checks:
        with open(words[3]) as file:
            print(compare(columns, rows, file.read().split("\n")[:-1]), "cells as the record says them")
    else:
        sys.stdout.reconfigure(newline="\n")
        for line in record(columns, rows):
            print(line)


if __name__ == "__main__":
    try:
        main(sys.argv[1:])
    except Wrong as wrong:
        sys.exit(f"convert.py: {wrong}")
