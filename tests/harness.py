"""What the scripts of this folder share: runs of the program, calls of it that fail, and the tally of what is wanted.

Each script is started as `tests/NAME [PROGRAM]`, where PROGRAM is the built replay program.
"""

import os
import shutil
import subprocess
import sys
import tempfile
from collections import namedtuple

TOP = os.path.dirname(os.path.dirname(os.path.abspath(__file__)))
NAME = os.path.basename(sys.argv[0])
PROGRAM = os.path.abspath(sys.argv[1] if len(sys.argv) > 1 else f"{TOP}/crates/ecam_replay/out/ecam_replay")
EXAMPLES = f"{TOP}/examples"
UNREAD = (4, b"", b"read fault\n")

# The book and the record of a failure with its procedure and its secondary, limits for them, and what is written of them.
BOOK = f"{EXAMPLES}/hydraulics/book.toml"
RECORD = f"{EXAMPLES}/hydraulics/record"
LIMITS = f"{EXAMPLES}/hydraulics/limits.toml"
with open(f"{EXAMPLES}/hydraulics/expected", "rb") as it:
    SHOWN = it.read()
with open(f"{EXAMPLES}/words/record", "rb") as it:
    OWN_WORDS = it.read()

with open(f"{EXAMPLES}/hydraulics/migrated.toml", "rb") as it:
    MIGRATED = it.read()
with open(f"{EXAMPLES}/hydraulics/advised", "rb") as it:
    ADVISED = it.read()

# Each command on them, and what it writes.
COMMANDS = {
    "check": (("check", BOOK), b"OK alerts 2 params 3 memos 0 pages 1 slots 0\n"),
    "replay": (("replay", BOOK, RECORD), SHOWN),
    "why": (("why", BOOK, RECORD), b"g_rsvr titled 1\ng_press_lo starred g_rsvr\n"),
    "drill": (("drill", BOOK, "7", "600"), b"moments 600 blocks 3 lines 8 bytes 162\n"),
    "migrate": (("migrate", BOOK), MIGRATED),
    "callouts": (("callouts", BOOK, RECORD, "g_press"), b"@2 CALL 10\nEND 7\n"),
    "advise": (("advise", BOOK, RECORD, LIMITS), ADVISED),
    "report": (("report", BOOK, RECORD), b"FLIGHT 0 FROM 0 ONSETS 1\n@1 PHASE 1 g_rsvr\nEND 7\n"),
    "words": (("words", BOOK, RECORD), OWN_WORDS),
}


def forms(book, record, number="g_press", limits=LIMITS):
    """The words of each command with this book and this record, a number of the book, and limits for it."""
    return [
        ("check", book),
        ("replay", book, record),
        ("why", book, record),
        ("drill", book, "1", "1"),
        ("migrate", book),
        ("callouts", book, record, number),
        ("advise", book, record, limits),
        ("report", book, record),
        ("words", book, record),
    ]


def reads_record(words):
    """Whether these words ask for a command that reads a record, which is then the third of them."""
    return words[0] not in ("check", "drill", "migrate")


def recording(record, book=BOOK, number="g_press", limits=LIMITS):
    """Those of the commands that read a record, with this one."""
    return [words for words in forms(book, record, number, limits) if reads_record(words)]


if not os.access(PROGRAM, os.X_OK):
    sys.exit(f"{NAME}: {PROGRAM} isn't there: build it by ./ecam_replay, or name a built program")

_scratch = tempfile.TemporaryDirectory(prefix="ecam-tests-")
SCRATCH = _scratch.name
TOLD = f"{SCRATCH}/told"

# How a run ended: its status, and what it wrote to standard output and standard error.
Ran = namedtuple("Ran", "status out err")

# What a run called: allocations, those before its last open, opens and reads, writes to standard output and to standard
# error, closes; and the most memory and the most stack that it had in use at once, in KiB.
Calls = namedtuple("Calls", "alloc early files out err close most stack")


def run(words, stdin=subprocess.DEVNULL, stdout=None, stderr=None, seconds=60, prepare=None, **settings):
    """Runs the program on these words. `stdout` and `stderr` stand in the place of what is else caught. A run that takes
    longer is ended, and has the status -9."""
    with tempfile.TemporaryFile() as out, tempfile.TemporaryFile() as err:
        given = {"stdin": stdin, "stdout": stdout or out, "stderr": stderr or err, "preexec_fn": prepare}
        if isinstance(stdin, bytes):
            given["stdin"] = subprocess.PIPE
        environment = {**os.environ, **{name: str(value) for name, value in settings.items()}}
        process = subprocess.Popen([PROGRAM, *words], env=environment, **given)
        try:
            process.communicate(stdin if isinstance(stdin, bytes) else None, timeout=seconds)
        except subprocess.TimeoutExpired:
            process.kill()
            process.wait()
        out.seek(0)
        err.seek(0)
        return Ran(process.returncode, out.read(), err.read())


def scratch(name, content):
    """A file of this content in the scratch folder."""
    path = f"{SCRATCH}/{name}"
    with open(path, "wb") as it:
        it.write(content if isinstance(content, bytes) else content.encode())
    return path


def built_failing():
    """The library that makes calls fail, or None where there is no C compiler."""
    compiler = os.environ.get("CC") or shutil.which("cc") or shutil.which("clang") or shutil.which("gcc")
    if not compiler:
        print(f"{NAME}: there is no C compiler, so failing calls aren't tried")
        return None
    library = f"{SCRATCH}/failing.so"
    source = f"{TOP}/tests/failing.c"
    subprocess.run([compiler, "-O2", "-shared", "-fPIC", "-o", library, source, "-ldl"], check=True)
    return library


_failing = []


def failing():
    """The same, built once."""
    if not _failing:
        _failing.append(built_failing())
    return _failing[0]


def fails(words, kind=None, first=1, last=None, why=5, **more):
    """Runs the program with the calls of that kind failing from the first to the last one."""
    settings = {"LD_PRELOAD": failing(), **more}
    if kind:
        settings |= {"FAIL_KIND": kind, "FAIL_FIRST": first, "FAIL_ERRNO": why}
        if last != "all":
            settings["FAIL_LAST"] = last or first
    return run(words, **settings)


def told():
    """Which calls the last run made that had TOLD among its settings."""
    with open(TOLD, encoding="ascii") as it:
        made = Calls(*map(int, it.read().split()))
    in_use(made)
    return made


def calls(words, **more):
    """How a run ends with nothing failing, and which calls it makes."""
    return fails(words, TOLD=TOLD, **more), told()


_tally = {"tried": 0, "failed": 0, "most": 0, "stack": 0}


def in_use(made):
    """Notes how much memory and stack a run had in use at most."""
    for name in "most", "stack":
        _tally[name] = max(_tally[name], getattr(made, name))


def short(got):
    text = repr(got)
    return text if len(text) < 300 else f"{text[:280]} .. ({len(text)} characters)"


def want(what, got, wanted):
    """Counts a case, and says where it isn't as wanted."""
    _tally["tried"] += 1
    if isinstance(got, tuple) and tuple(got) == wanted or got == wanted:
        return
    _tally["failed"] += 1
    if _tally["failed"] <= 40:
        print(f"{NAME}: {what}: not as expected, but {short(got)}; wanted {short(wanted)}")


def note(text):
    print(f"{NAME}: {text}", flush=True)


def end():
    """Says how many cases there were and how much memory a run had in use at most, where that was measured, and ends with 1
    where a case wasn't as wanted."""
    tried, failed, most, stack = _tally.values()
    memory = f"; at most {most} KiB in use, of the stack {stack}" if most else ""
    note(f"{tried} cases, {'all as expected' if not failed else f'{failed} not as expected'}{memory}")
    sys.exit(1 if failed else 0)
