#!/usr/bin/env python3
"""Makes the record of the flight from its story: python3 make.py > record

story.txt tells what happens when; book.toml tells, by the first source of each parameter, how it comes on the bus; and
../convert/convert.py makes the words. A word comes when the story sets a value in it, and besides so often that two of
them fit into the time for which the book forgives its silence. It needs Python 3.11 or later, and nothing else.
"""

import pathlib
import sys
import tomllib

HERE = pathlib.Path(__file__).parent
sys.dont_write_bytecode = True
sys.path.insert(0, str(HERE.parent / "convert"))
import convert


def moment(seconds):
    """The moment of 100 ms that begins at a time in seconds, which has at most one decimal."""
    whole, _, tenths = seconds.partition(".")
    return int(whole) * 10 + int(tenths or 0)


def events(lines):
    """The events of the story by their moments: each line is `TIME EVENT, EVENT, ..`."""
    found = {}
    for line in lines:
        text = line.partition("#")[0].strip()
        if text:
            time, rest = text.split(maxsplit=1)
            found.setdefault(moment(time), []).extend(event.split() for event in rest.split(","))
    return found


class Value:
    """What a parameter says from a moment on: one cell, or a number on its way from another."""

    def __init__(self, begin, cell, length=0, before=None):
        self.begin, self.cell, self.length, self.before = begin, cell, length, before

    def at(self, now):
        gone = now - self.begin
        if gone >= self.length:
            return self.cell
        return str(int(self.before) + (int(self.cell) - int(self.before)) * gone // self.length)


def shared_words(params, named):
    """The parameters that the story names, as columns of the converter, and together those that share a word."""
    columns = {param["name"]: {**param, **param["source"][0]} for param in params}
    if strange := named - columns.keys():
        raise convert.Wrong(f"the book has no parameter {min(strange)}")
    groups = {}
    for column in columns.values():
        if column["name"] in named:
            groups.setdefault(convert.address(column), []).append(column)
    return list(groups.values())


def record(params, story):
    """The lines of the record: in each moment the words in the book's order, then keys and computers, then `T`."""
    names = {event[0] for happens in story.values() for event in happens}
    groups = shared_words(params, names - {"press", "F", "U", "end"})
    values, lines, now = {}, {}, 0
    while ["end"] not in story.get(now, []):
        fresh = set()
        for event in story.get(now, []):
            match event:
                case ["F" | "U", _]:
                    lines.setdefault(now, []).append(" ".join(event))
                case ["press", key, *how_long]:
                    up = now + moment(how_long[1] if how_long else "0.3")
                    lines.setdefault(now, []).append(f"P {key}")
                    lines.setdefault(up, []).append(f"R {key}")
                case [name, cell]:
                    values[name] = Value(now, cell)
                    fresh.add(name)
                case [name, cell, "in", seconds]:
                    values[name] = Value(now, cell, moment(seconds), values[name].at(now))
        for number, group in enumerate(groups):
            every = min(column["stale"] for column in group) // 2
            if (now + number) % every == 0 or any(column["name"] in fresh for column in group):
                cells = [values[column["name"]].at(now) for column in group]
                yield f"W {group[0]['bus']} {convert.word(group, cells):08x}"
        yield from lines.get(now, [])
        yield "T"
        now += 1
    yield "E"


if __name__ == "__main__":
    book = tomllib.loads((HERE / "book.toml").read_text())
    story = events((HERE / "story.txt").read_text().splitlines())
    sys.stdout.reconfigure(newline="\n")
    for line in record(book["param"], story):
        print(line)
