"""Books and limits as large as they may be, as lines of TOML."""

SYSTEMS, PAGES, ROWS, PARAMS, SOURCES, TERMS, LINES, STATUS, MEMOS = 64, 16, 17, 1024, 3, 256, 16, 8, 128
ALERTS = {1: 1024, 2: 2048}
LONGEST = 4194304

ADVISORIES = 64
LONGEST_LIMITS = 65536


def texts(values):
    return "[" + ", ".join(f'"{it}"' for it in values) + "]"


def page(number, **other):
    row = '{ text = "R", show = "p2", unit = "PSI" }'
    keys = {"name": f'"page{number}"', "title": f'"PAGE {number}"', "row": "[" + ", ".join([row] * ROWS) + "]"}
    return table("page", keys | other)


def param(number, **other):
    """Odd ones are discretes, even ones numbers."""
    reading = "bit = 11" if number % 2 else "low = 17, range = 4096"
    sources = ", ".join(f'{{ bus = {bus}, label = "270", {reading} }}' for bus in range(SOURCES))
    keys = {"name": f'"p{number}"', "kind": '"disc"' if number % 2 else '"bnr"', "stale": "600", "source": f"[{sources}]"}
    return table("param", keys | other)


def term(number, **other):
    return table("term", {"name": f'"t{number}"', "when": '"p1"'} | other)


def alert(number, most=ALERTS[1], when='"p1"', **other):
    """Each has the secondaries that come behind it, as many as there may be."""
    line = '{ text = "L", when = "p1", done = "p2 < 0" }'
    after = [f"a{it}" for it in range(number + 1, min(number + 16, most) + 1)]
    keys = {"name": f'"a{number}"', "title": f'"ALERT {number}"', "system": '"HYD"', "level": "1", "when": when}
    keys |= {"secondary": texts(after), "line": "[" + ", ".join([line] * LINES) + "]"}
    keys["status"] = "[" + ", ".join(['{ section = "inop", text = "S" }'] * STATUS) + "]"
    return table("alert", keys | other)


def named_alert(number, **other):
    """The same in version 2, by a named condition."""
    return alert(number, **{"most": ALERTS[2], "when": '"t1"'} | other)


def memo(number, **other):
    keys = {"name": f'"m{number}"', "text": f'"MEMO {number}"', "zone": '"left"', "when": '"p1"'}
    return table("memo", keys | other)


def table(section, keys):
    return f"[[{section}]]\n" + "".join(f"{key} = {value}\n" for key, value in keys.items() if value is not None)


# By versions, each section but the top and the phase: how many items it has, and one of them.
SECTIONS = {
    1: {"page": (PAGES, page), "param": (PARAMS, param), "alert": (ALERTS[1], alert), "memo": (MEMOS, memo)},
    2: {
        **{"page": (PAGES, page), "param": (PARAMS, param), "term": (TERMS, term)},
        **{"alert": (ALERTS[2], named_alert), "memo": (MEMOS, memo)},
    },
}


def full(last=None, top=None, systems=None, phase=None, more="", version=1):
    """A book with as many items in each section as there may be, and as many in each list of them. `last` gives other keys
    to the last items of sections, `phase` other conditions, and `more` stands behind all."""
    names = ["HYD"] + [f"S{it}" for it in range(2, SYSTEMS + 1)]
    parts = [f"version = {version}\n" if top is None else top, f"systems = {texts(systems or names)}\n"]
    conditions = {it: '"p1"' for it in ("gnd", "run", "tp", "fast", "high", "low")} | (phase or {})
    parts.append("[phase]\n" + "".join(f"{key} = {value}\n" for key, value in conditions.items()))
    for section, (count, item) in SECTIONS[version].items():
        parts += [item(it) for it in range(1, count)]
        parts.append(item(count, **(last or {}).get(section, {})))
    return "".join(parts) + more


def checked(version):
    """What `check` says of such a book."""
    return f"OK alerts {ALERTS[version]} params {PARAMS} memos {MEMOS} pages {PAGES} slots 0\n".encode()


def plain(count, version=1):
    """So many alerts of level 1, of one discrete."""
    source = 'source = [{ bus = 0, label = "270", bit = 11 }]'
    book = f'version = {version}\nsystems = ["HYD"]\n[[param]]\nname = "g_lo"\nkind = "disc"\nstale = 600\n{source}\n'
    item = '[[alert]]\nname = "n{0}"\ntitle = "ALERT {0}"\nsystem = "HYD"\nlevel = 1\nwhen = "g_lo"\n'
    return book + "".join(item.format(it) for it in range(1, count + 1))


def advisory(number, **other):
    keys = {"name": f'"l{number}"', "param": f'"p{PARAMS}"', "page": f'"page{PAGES}"', "low": "-1", "high": "1"}
    keys |= {"margin": "1", "confirm": "36000", "inhibit": "[1, 2, 3, 4, 5, 6, 7, 8, 9, 10]"}
    return table("advisory", keys | other)


def full_limits(top="version = 1\n", more="", **other):
    """Limits for a full book, with as many advisories as there may be. The last one has these other keys."""
    return "".join([top, *map(advisory, range(1, ADVISORIES)), advisory(ADVISORIES, **other), more])
