#!/usr/bin/env python3
"""Tries the launcher `msb`: what it says and leaves alone, terminals, signals, its pages.

usage: tests/launcher.py PROGRAM

The launcher runs the program that stands beside it, and takes no other one; so each part lays out a
folder with a copy of the launcher and PROGRAM at the place of the built program. Each failure
prints `FAIL NAME: what differs`; the last line is `N passed, M failed`.
"""

import os
import pty
import random
import re
import resource
import select
import shutil
import signal
import subprocess
import sys
import tempfile
import time
from pathlib import Path
from typing import Callable, NamedTuple

from folder_tests.place import Skipped, small_disk

TOP = Path(__file__).resolve().parent.parent
USAGE = ("usage: msb ACTION PROJECT [--target LIST] [--property LIST] [--nodes N] [--clean] "
         "[--show low] [--size N]\n")
HELLO = ('{"e":"Project","c":[{"e":"Target","a":{"Name":"Build"},"c":['
         '{"e":"Message","a":{"Text":"hello"}}]}]}')
BUILT = "hello.proj : build ran\n  hello\nreturned 0\nbuild succeeded\n"
SECONDS = 60


class Ran(NamedTuple):
    status: int
    printed: str
    said: str


class Place:
    """A folder with the launcher, its program, and a folder `work` to run it in."""

    def __init__(self, scratch: Path, program: Path | None) -> None:
        self.top = Path(tempfile.mkdtemp(dir=scratch))
        self.work = self.top / "work"
        self.work.mkdir()
        shutil.copy2(TOP / "msb", self.top / "msb")
        shutil.copytree(TOP / "tools" / "launcher", self.top / "tools" / "launcher")
        shutil.copy2(TOP / "tools" / "build.py", self.top / "tools" / "build.py")
        (self.top / "crates" / "msb" / "out").mkdir(parents=True)
        (self.top / "crates" / "msb" / "src").mkdir()
        (self.top / "crates.txt").write_text("msb:\n")
        if program:
            self.put_program(program)
        self.write("hello.proj", HELLO)

    @property
    def program(self) -> Path:
        return self.top / "crates" / "msb" / "out" / "msb"

    def put_program(self, program: Path) -> None:
        shutil.copy(program, self.program)
        self.program.chmod(0o755)

    def script(self, text: str) -> None:
        """A shell script in the place of the program."""
        self.program.write_text(f"#!/bin/sh\n{text}\n")
        self.program.chmod(0o755)

    def write(self, path: str, text: str | bytes) -> None:
        file = self.work / path
        file.parent.mkdir(parents=True, exist_ok=True)
        file.write_bytes(text.encode() if isinstance(text, str) else text)

    def run(self, *words: str | bytes, **more: object) -> Ran:
        ran = subprocess.run([str(self.top / "msb"), *words], cwd=self.work,
                             stdin=subprocess.DEVNULL,
                             stdout=subprocess.PIPE, stderr=subprocess.PIPE, timeout=SECONDS,
                             **more)
        return Ran(ran.returncode, ran.stdout.decode(errors="replace"),
                   ran.stderr.decode(errors="replace"))

    def shell(self, command: str) -> Ran:
        """Runs a shell command in which `msb` is the launcher."""
        ran = subprocess.run(["bash", "-c", command.replace("msb", str(self.top / "msb"), 1)],
                             cwd=self.work,
                             stdin=subprocess.DEVNULL, stdout=subprocess.PIPE,
                             stderr=subprocess.PIPE, timeout=SECONDS)
        return Ran(ran.returncode, ran.stdout.decode(), ran.stderr.decode())


class Tests:
    """What was tried, and what was not as wanted."""

    def __init__(self, scratch: Path, program: Path) -> None:
        self.scratch, self.program = scratch, program
        self.passed = self.failed = 0

    def place(self, program: bool = True) -> Place:
        return Place(self.scratch, self.program if program else None)

    def check(self, name: str, good: bool, told: object = "") -> None:
        if good:
            self.passed += 1
        else:
            self.failed += 1
            print(f"FAIL {name}: {told}")

    def says(self, name: str, ran: Ran, status: int, *texts: str) -> None:
        """The status is this one, and each of the texts stands on standard error."""
        missing = [text for text in texts if text not in ran.said]
        self.check(name, ran.status == status and not missing, f"{missing} in {ran}")


# ---- Words ------------------------------------------------------------------------------------

WORDS = (
    ((), "usage: msb ACTION PROJECT [OPTION ..]"),
    (("--help",), "examples:"),
    (("-h",), "--property LIST"),
    (("build", "hello.proj", "--help"), "words of the launcher"),
    (("build", "hello.proj", "-t:Build"), "`-t:Build` is written `--target Build` here",
     "try: msb build hello.proj --target Build\n"),
    (("build", "hello.proj", "/t:Build"), "try: msb build hello.proj --target Build\n"),
    (("build", "hello.proj", "-p:A=B"), "try: msb build hello.proj --property A=B\n"),
    (("hello.proj", "-t:Build", "-p:A=B", "-p:C=D E"),
     'try: msb build hello.proj --target Build --property "A=B;C=D E"\n'),
    (("build", "hello.proj", "-p:A=$B"), "try: msb build hello.proj --property 'A=$B'\n"),
    (("build", "hello.proj", "-m"), "`-m` is written `--nodes "),
    (("build", "hello.proj", "-m:4"), "try: msb build hello.proj --nodes 4\n"),
    (("build", "hello.proj", "-j8"), "try: msb build hello.proj --nodes 8\n"),
    (("build", "hello.proj", "-v:q"), "`--show low`"),
    (("build", "hello.proj", "--nodes", "65"), "`--nodes 65`: it is a number from 1 to 64"),
    (("build", "hello.proj", "--nodes", "064"), "it is a number from 1 to 64"),
    (("build", "hello.proj", "--property", "A=1", "--property", "B=2"), "`--property` stands twice",
     'try: msb build hello.proj --property "A=1;B=2"\n'),
    (("build", "hello.proj", "--property", "Debug"), "`Debug` is no NAME=VALUE"),
    (("build", "hello.proj", "--property", "MSBuildThisFile=x"), "the engine sets itself"),
    (("build", "hello.proj", "--target", "a b"), "`a b` is no name of a target"),
    (("build", "hello.proj", "--target", ";"), "it names no target"),
    (("build", "hello.proj", "--show", "high"), "its one value is `low`"),
    (("build", "hello.proj", "--show"), "`--show` has no value: --show low"),
    (("build", "hello.proj", "--clean=true"), "`--clean` has no value",
     "try: msb build hello.proj --clean\n"),
    (("build", "hello.proj", "--tagret", "a"), "is `--target` meant?"),
    (("build", "hello.proj", "--quiet"), "`--quiet` stands before the action"),
    (("biuld", "hello.proj"), "is `build` meant?"),
    (("build",), "the PROJECT is missing: msb build PROJECT"),
    (("build", "hello.proj", "x"), "`x` is one word too many"),
    (("build", ""), "a word is empty"),
    (("check", "hello.proj", "--nodes", "2"), "`check` does not take `--nodes`"),
    (("eval", "hello.proj", "--nodes", "2"), "`eval` does not take `--nodes`"),
    (("trial", "7"), "`trial` needs `--size N`"),
    (("trial", "x", "--size", "5"), "the SEED of a trial is a number"),
)


def try_words(tests: Tests) -> None:
    place = tests.place()
    for words, *texts in WORDS:
        ran = place.run(*words)
        tests.says(f"words {words}", ran, 2, *texts)
        tests.check(f"usage {words}", ran.printed == USAGE, ran.printed)
    ran = place.run("build", b"hello\xff.proj")
    tests.says("a word that is no text", ran, 11, "word 2 is no UTF-8")


RANDOM_WORDS = ("build", "check", "eval", "targets", "trial", "x.proj", "7", "--target", "--target=a",
                "--target=", "--property",
                "--property=A=1", "A=1", "A", "a;b", ";", "--nodes", "--nodes=64", "64", "0", "100",
                "--clean", "--clean=",
                "--show", "low", "--show=low", "--size", "--size=100", "--size=101", "", "--", "-x",
                "--nodes=1",
                "MSBuildThisFile=1", "a b", "99999999999999999999", "--Target")


def try_random_words(tests: Tests) -> None:
    """The launcher finds something wrong exactly where the program refuses the words."""
    sys.path.insert(0, str(TOP / "tools" / "launcher"))
    from advice import advice
    place, draw, good, bad = tests.place(), random.Random(5), 0, []
    (place.work / "hello.proj").unlink()
    for _ in range(800):
        words = [draw.choice(RANDOM_WORDS) for _ in range(draw.randint(1, 6))]
        if draw.random() < 0.7:
            words = [draw.choice(RANDOM_WORDS[:5]), draw.choice(("x.proj", "7")), *words[:-2]]
        ran = subprocess.run([place.program, *words], cwd=place.work, stdout=subprocess.PIPE,
                             timeout=SECONDS)
        lines, asks_for_help = advice(words)
        if (ran.returncode == 2) != bool(lines or asks_for_help):
            bad.append((words, ran.returncode, lines))
        good += ran.returncode != 2
    tests.check("random words", not bad and good > 50, (good, bad[:3]))


# ---- Refusals ---------------------------------------------------------------------------------


def try_not_found(tests: Tests) -> None:
    place = tests.place()
    place.write("app/App.csproj", HELLO)
    (place.work / "linked.proj").symlink_to("hello.proj")
    absolute = str(place.work / "app" / "App.csproj")
    rows = (
        ("app", "`app` is a folder; name a file: `app/App.csproj`"),
        (".", "`.` is a folder; name a file: `hello.proj`"),
        (absolute, "PROJECT is a path from the current folder: `app/App.csproj`"),
        ("/etc/passwd", "`/etc/passwd` is not below the current folder"),
        ("../x.proj", "leaves the current folder"),
        ("Hello.proj", "is `hello.proj` meant?"),
        ("helo.proj", "is `hello.proj` meant?"),
        ("app/app.csproj", "is `app/App.csproj` meant?"),
        ("no/x.proj", "there is no folder `no` in"),
        ("linked.proj", "`linked.proj` is a link"),
    )
    for project, text in rows:
        ran = place.run("build", project)
        tests.says(f"project {project}", ran, 3, text)
        tests.check(f"text of {project}",
                    ran.printed == f"project refused\n  {project}: not found\n", ran.printed)


PLACES = (
    ('{"e":"Project",\n "c":[\n  {"e":"Target","a":{"Name":"B"}},\n'
     '  {"e":"Import","a":{"Project":"no.props"}}]}',
     ("a.proj:4:3: <Import Project=\"no.props\">",
      "21 MissingImport: the imported file is not in the folder")),
    ('{"e":"Project","c":[{"e":"PropertyGroup","c":['
     '{"e":"Out","a":{"Condition":"\'$(A\'"},"t":"x"}]}]}',
     ("a.proj:1:47: <Out Condition=\"'$(A'\">",)),
    ('\n{"e":"Project","a":{"Sdk":"Microsoft.NET.Sdk"}}',
     ("a.proj:2:1: <Project Sdk=\"Microsoft.NET.Sdk\">", "Sdk; docs/FROM_MSBUILD.md")),
    ('{"e":"project"}', ("a.proj:1:1: <project>", "one element named Project")),
    ('{"c":[{"e":"ItemGroup","c":[{"e":"A","a":{"Include":"../../x"}},\n'
     '{"a":{"Include":"../../x"},"t":"ä","e":"2B"}'
     ']}],"e":"Project"}', ("a.proj:2:1: <2B Include=\"../../x\">", "3 UnknownElement")),
)


def try_places(tests: Tests) -> None:
    place = tests.place()
    for number, (text, wanted) in enumerate(PLACES):
        place.write("a.proj", text)
        tests.says(f"place {number}", place.run("eval", "a.proj"), 3, *wanted)
    place.write("lib/a.proj",
                '{"e":"Project","c":[\n{"e":"Target","a":{"Name":"B"},"c":[\n'
                '{"e":"Message","a":{"Text":"$(A"}}]}]}')
    place.write("all.proj", '{"e":"Project","c":[{"e":"Target","a":{"Name":"B"},"c":['
                            '{"e":"MSBuild","a":{"Projects":"lib/a.proj"}}]}]}')
    tests.says("place in a failed build", place.run("build", "all.proj"), 1,
               'lib/a.proj:3:1: <Message Text="$(A">')


NOT_JSON = (
    ('{"e":"Project",\n"c":[],}',
     "a.proj:2:8: a name in double quotes was expected, behind a comma"),
    ('{"e":"Project","c":[{"e":"ItemGroup"}',
     "a.proj:1:38: a comma, or the end of the array or object, was expected"),
    ('{"e":"Project","a":{"x":tru}}', "a.proj:1:25: a value was expected"),
    ('{"e" "Project"}', "a.proj:1:6: a colon was expected"),
    ('{"e":"Pro\nject"}', "a.proj:1:10: a line end"),
    ('{"e":"Project"} x', "a.proj:1:17: the text goes on behind its end"),
    ("", "a.proj:1:1: a value was expected, and here the file ends"),
    ('<Project />', "this is XML; /", "/tools/xml_to_elements.py makes an element tree of it"),
    (b'{"e":"Project\xff"}', "a.proj:1:14: the file is no UTF-8 here"),
    ('\ufeff{"e":"Project"}', "a.proj:1:1: the file begins with a byte order mark"),
    ('{"e":NaN}', "NaN is no value of JSON"),
    ('{"e":1e999}', "1e999 is no value of JSON"),
    ('{"e":"\\ud800"}', "half of a character"),
    ('{"c":' * 64 + "[" * 64 + "]" * 64 + "}" * 64, "more than 127 arrays and objects"),
)


def try_not_json(tests: Tests) -> None:
    place = tests.place()
    for text, *wanted in NOT_JSON:
        place.write("a.proj", text)
        ran = place.run("build", "a.proj")
        tests.says(f"no JSON {text[:30]!r}", ran, 3, *wanted)
        tests.check(f"NotJson {text[:30]!r}",
                    ran.printed == "project refused\n  a.proj /: 1 NotJson\n", ran.printed)


COPIER = ('{"e":"Project","c":[{"e":"Target","a":{"Name":"B"},"c":[{"e":"Copy","a":'
          '{"SourceFiles":"a.txt;a.txt","DestinationFiles":"b.txt;c.txt"}}]}]}')
WRITER = ('{"e":"Project","c":[{"e":"Target","a":{"Name":"B"},"c":['
          '{"e":"WriteLinesToFile","a":{"File":"out/sub/a.txt","Lines":"x"}}]}]}')


def try_store_faults(tests: Tests) -> None:
    place = tests.place()
    place.write("a.proj", WRITER)
    place.write("out", "a file")
    tests.says("a file for a folder", place.run("build", "a.proj"), 5,
               "out: it is a file, and a folder is wanted")
    (place.work / "out").unlink()
    (place.work / "out" / "sub" / "a.txt").mkdir(parents=True)
    tests.says("a folder for a file", place.run("build", "a.proj"), 5,
               "out/sub/a.txt: it is a folder")
    shutil.rmtree(place.work / "out")
    open(os.fsencode(place.work) + b"/na\xffme", "w").close()
    tests.says("a name that is no text", place.run("build", "a.proj"), 5,
               "na\\xffme: the name is no UTF-8")
    os.unlink(os.fsencode(place.work) + b"/na\xffme")
    try_permissions(tests, place)


def try_permissions(tests: Tests, place: Place) -> None:
    """A folder and a file that can't be read, and a folder that can't be written to."""
    nobody = {"user": 65534, "group": 65534, "extra_groups": ()} if os.geteuid() == 0 else {}
    for folder in (tests.scratch, place.top, place.work):
        folder.chmod(0o755)
    (place.work / "shut").mkdir()
    (place.work / "shut").chmod(0)
    tests.says("a folder that is shut", place.run("build", "a.proj", **nobody), 5,
               "shut: Permission denied")
    (place.work / "shut").rmdir()
    place.write("b.txt", "x")
    (place.work / "b.txt").chmod(0)
    tests.says("a file that is shut", place.run("build", "a.proj", **nobody), 5,
               "b.txt: Permission denied")
    (place.work / "b.txt").unlink()
    place.work.chmod(0o555)
    tests.says("a folder that is not written to", place.run("build", "a.proj", **nobody), 5,
               ".: no permission to write in this folder")
    place.work.chmod(0o755)


def try_full_disk(tests: Tests) -> None:
    """Disks with no room for the second copy, and with some; neither where none can be mounted."""
    place = tests.place()
    for kibibytes, bytes_each, told in ((144, 60_000, "no room is left on the file system"),
                                        (192, 100_000, "KiB are left on the file system")):
        place.work = place.top / f"disk{kibibytes}"
        try:
            with small_disk(place.work, kibibytes):
                place.write("a.proj", COPIER)
                place.write("a.txt", "x" * bytes_each)
                tests.says(f"a disk of {kibibytes} KiB", place.run("build", "a.proj"), 5, told)
        except Skipped as reason:
            print(f"passed over: {reason}")


def try_limits(tests: Tests) -> None:
    place = tests.place()
    (place.work / "node_modules").mkdir()
    for number in range(20_000):
        (place.work / "node_modules" / f"f{number}").touch()
    tests.says("too many files", place.run("build", "hello.proj"), 8,
               "most files are in node_modules/ 20,000", ".git")
    shutil.rmtree(place.work / "node_modules")
    with (place.work / "large").open("wb") as file:
        file.truncate(16_777_217)
    tests.says("a large file", place.run("build", "hello.proj"), 8, "more than 16,777,216 bytes")
    (place.work / "large").unlink()
    place.write("a\\b", "")
    tests.says("a bad path", place.run("build", "hello.proj"), 8, "rename or remove it")


def try_circle(tests: Tests) -> None:
    place = tests.place()
    place.write("a.proj", '{"e":"Project","c":[{"e":"Target","a":{"Name":"B"},"c":['
                          '{"e":"MSBuild","a":{"Projects":"a.proj"}}]}]}')
    tests.says("a circle", place.run("build", "a.proj"), 4, "each of these runs waits for the next")


TIME = re.compile(r"msb: [0-9.]+ s, [0-9.]+ s of processor time, [0-9]+ MiB at most\n")


# ---- The text and the status ------------------------------------------------------------------


def try_text(tests: Tests) -> None:
    place = tests.place()
    text = "x" * 3_000_000
    large = f'{{"e":"Project","c":[{{"e":"PropertyGroup","c":[{{"e":"A","t":"{text}"}}]}}]}}'
    place.write("large.proj", large)
    rows = (("build", "hello.proj"), ("check", "hello.proj"), ("eval", "large.proj"), ("targets", "hello.proj"),
            ("trial", "7", "--size", "20"),
            ("build", "hello.proj", "--nodes", "8"))
    for words in rows:
        own = subprocess.run([place.program, *words], cwd=place.work, capture_output=True,
                             text=True)
        for before in ((), ("--quiet",)):
            ran = place.run(*before, *words)
            tests.check(f"text {before} {words}", ran == Ran(own.returncode, own.stdout, ""),
                        str(ran)[:200])
    tests.check("quiet refusal", place.run("--quiet", "build", "x").said == "")
    ran = place.run("--time", "build", "hello.proj")
    tests.check("time", bool(TIME.fullmatch(ran.said)) and ran.printed == BUILT, ran)
    ran = place.run("--time", "--quiet", "build", "x.proj")
    tests.check("time and quiet", ran.said.count("\n") == 1 and ran.status == 3, ran)


def try_output_faults(tests: Tests) -> None:
    place = tests.place()
    tests.says("full", place.shell("msb build hello.proj > /dev/full"), 6,
               "No space left on device")
    tests.says("full, quiet", place.shell("msb --quiet build hello.proj > /dev/full"), 6)
    tests.says("closed", place.shell("msb build hello.proj >&-"), 6)
    tests.says("refused and full", place.shell("msb build x.proj > /dev/full"), 3,
               "No space left on device")
    ran = place.shell("(sleep 0.5; msb build hello.proj; echo $? >status) | true; cat status")
    tests.check("a pipe that is closed", ran.printed == "6\n", ran)


def try_end_by_signal(tests: Tests) -> None:
    place = tests.place(False)
    place.script("kill -9 $$")
    tests.says("killed", place.run("build", "x"), 137, "the program was killed")
    place.script("exit 77")
    tests.check("another status", place.run("build", "x").status == 77)


# ---- The allocator ----------------------------------------------------------------------------

LOADER = "/lib64/ld-linux-x86-64.so.2"
LIMITS = (resource.RLIMIT_AS, resource.RLIMIT_DATA)
TUNED = ("hugetlb", "top_pad", "trim_threshold", "mmap_threshold", "tcache_count")


def settings_of(text: str) -> dict[str, str]:
    """The settings of the allocator by their names."""
    found = re.findall(r"glibc\.malloc\.([a-z_]+)=([1-9][0-9]*)(?::|$)", text)
    return dict(found) if ":".join(f"glibc.malloc.{a}={b}" for a, b in found) == text else {}


def try_allocator(tests: Tests) -> None:
    """The program gets settings of its allocator; a user's own are handed on as they are."""
    if any(resource.getrlimit(limit)[0] != resource.RLIM_INFINITY for limit in LIMITS):
        print("passed over: the allocator, since memory is limited here")
        return
    place = tests.place(False)
    place.script('echo "${GLIBC_TUNABLES-none}"; echo "$OTHER"')
    plain = {**os.environ, "OTHER": "kept  as it is"}
    plain.pop("GLIBC_TUNABLES", None)
    for before in ((), ("--time",), ("--quiet",), ("--quiet", "--time")):
        for action in ("build", "check", "eval"):
            ran = place.run(*before, action, "x", env=plain)
            given, _, other = ran.printed.partition("\n")
            tests.check(f"settings {before} {action}", tuple(settings_of(given)) == TUNED, ran)
            tests.check(f"other variables {before} {action}", other == "kept  as it is\n", ran)
        for own in ("glibc.malloc.perturb=1", ""):
            ran = place.run(*before, "build", "x", env={**plain, "GLIBC_TUNABLES": own})
            tests.check(f"own settings {before} {own!r}",
                        ran.printed == f"{own}\nkept  as it is\n", ran)
        for limit in LIMITS:
            ran = run_limited(place, before, plain, limit)
            tests.check(f"limited memory {before} {limit}",
                        ran.printed == "none\nkept  as it is\n", ran)
    try_tunables(tests, place, plain)


def run_limited(place: Place, before: tuple[str, ...], variables: dict[str, str],
                limit: int) -> Ran:
    """Runs the launcher with a limit of memory, which is large enough."""
    limits = resource.getrlimit(limit)
    resource.setrlimit(limit, (8 << 30, limits[1]))
    try:
        return place.run(*before, "build", "x", env=variables)
    finally:
        resource.setrlimit(limit, limits)


def try_tunables(tests: Tests, place: Place, plain: dict[str, str]) -> None:
    """The C library takes each of the settings, where it tells of them."""
    place.script(f'echo "$GLIBC_TUNABLES"; exec {LOADER} --list-tunables')
    ran = place.run("--quiet", "build", "x", env=plain)
    if ran.status:
        print(f"passed over: {LOADER} lists no settings")
        return
    given, _, listed = ran.printed.partition("\n")
    for name, value in settings_of(given).items():
        line = f"glibc.malloc.{name}: {int(value):#x} "
        tests.check(f"setting {name}", line in listed, (value, listed))


# ---- Terminals and signals --------------------------------------------------------------------


class Terminal:
    """The launcher on a terminal of its own."""

    def __init__(self, place: Place, *words: str) -> None:
        self.seen = b""
        self.number, self.file = pty.fork()
        if not self.number:
            os.chdir(place.work)
            os.environ["TERM"] = "xterm"
            os.execv(place.top / "msb", [str(place.top / "msb"), *words])

    def read(self, until: Callable[[bytes], bool], seconds: float = SECONDS) -> bytes:
        """Reads until this holds of what was seen, or the end."""
        end = time.monotonic() + seconds
        while not until(self.seen) and time.monotonic() < end:
            if not select.select([self.file], [], [], 0.1)[0]:
                continue
            try:
                piece = os.read(self.file, 4096)
            except OSError:
                break
            if not piece:
                break
            self.seen += piece
        return self.seen

    def type(self, text: bytes) -> None:
        os.write(self.file, text)

    def end(self) -> int:
        """Reads to the end, and gives the status, or the negative number of a signal."""
        self.read(lambda _: False)
        os.close(self.file)
        return os.waitstatus_to_exitcode(os.waitpid(self.number, 0)[1])


def is_running(number: int) -> bool:
    """Whether this process still runs."""
    try:
        return Path(f"/proc/{number}/stat").read_text().rpartition(")")[2].split()[0] != "Z"
    except OSError:
        return False


def wait_for(holds: Callable[[], bool]) -> bool:
    end = time.monotonic() + SECONDS
    while not holds() and time.monotonic() < end:
        time.sleep(0.05)
    return holds()


def try_progress(tests: Tests) -> None:
    place = tests.place(False)
    place.script("sleep 5.5; echo done")
    terminal = Terminal(place, "build", "x")
    tests.check("status on a terminal", terminal.end() == 0)
    seen = terminal.seen.decode()
    told = [int(number) for number in re.findall(r"\rbuilding, ([0-9]+) s", seen)]
    tests.check("progress", len(told) >= 2 and min(told) >= 2, seen)
    tests.check("progress comes once a second", told == sorted(set(told)), seen)
    tests.check("progress is gone", bool(re.search(r"\r +\rdone\r\n\Z", seen)), repr(seen))
    terminal = Terminal(place, "--quiet", "build", "x")
    terminal.end()
    tests.check("no progress where quiet", terminal.seen == b"done\r\n", terminal.seen)
    tests.check("no progress without a terminal", place.run("build", "x") == Ran(0, "done\n", ""))
    place.script("echo done")
    terminal = Terminal(place, "eval", "x")
    terminal.end()
    tests.check("no progress in a short run", terminal.seen == b"done\r\n", terminal.seen)


def try_interrupts(tests: Tests) -> None:
    place = tests.place(False)
    file = place.work / "number"
    place.script(f"echo $$ > {file}.new; mv {file}.new {file}; exec sleep 50")
    for name, words in (("ctrl-C", ()), ("ctrl-C, quiet", ("--quiet",)),
                        ("ctrl-C, time", ("--quiet", "--time"))):
        file.unlink(missing_ok=True)
        terminal = Terminal(place, *words, "build", "x")
        wait_for(file.exists)
        number = int(file.read_text())
        terminal.type(b"\x03")
        tests.check(name, terminal.end() == -signal.SIGINT and not is_running(number),
                    terminal.seen)
        tests.check(f"{name} says nothing", b"Traceback" not in terminal.seen, terminal.seen)
    for which in (signal.SIGTERM, signal.SIGINT, signal.SIGHUP):
        file.unlink(missing_ok=True)
        # A test that is run by `nohup` hands on that it ignores the signal.
        run = subprocess.Popen([place.top / "msb", "build", "x"], cwd=place.work,
                               stdout=subprocess.PIPE,
                               preexec_fn=lambda: signal.signal(which, signal.SIG_DFL))
        wait_for(file.exists)
        number = int(file.read_text())
        run.send_signal(which)
        run.communicate(timeout=SECONDS)
        tests.check(f"{which.name} ends both", run.returncode == -which and not is_running(number),
                    run.returncode)


# ---- Which program ----------------------------------------------------------------------------

MAKES = """import os, pathlib, sys
top = pathlib.Path(__file__).resolve().parent.parent
path = top / "{path}"
path.parent.mkdir(parents=True, exist_ok=True)
path.write_text("#!/bin/sh\\necho {says} $*\\n")
path.chmod(0o755)
with open(top / "made", "a") as file:
    file.write("{says}\\n")
"""


def try_without_kit(tests: Tests) -> None:
    place = tests.place(False)
    path = {**os.environ, "PATH": "/usr/bin:/bin"}
    if shutil.which("rt", path=path["PATH"]):
        return
    for words in (("build", "x"), ("--help",)):
        ran = place.run(*words, env=path)
        tests.says(f"no kit {words}", ran, 125, "the command `rt` of the Rattle kit is not in PATH")
        tests.check(f"no kit, one line {words}", ran.said.count("\n") == 1 and not ran.printed, ran)
    place.put_program(tests.program)
    tests.check("built, no kit", place.run("build", "hello.proj", env=path) == Ran(0, BUILT, ""))


def try_builds(tests: Tests) -> None:
    """It builds where there is no program, or an older one, and once."""
    place = tests.place(False)
    (place.top / "tools" / "build.py").write_text(MAKES.format(path="crates/msb/out/msb",
                                                               says="proved"))
    for _ in range(2):
        tests.check("built", place.run("build", "x") == Ran(0, "proved build x\n", ""))
    tests.check("built once", (place.top / "made").read_text() == "proved\n")
    source = place.top / "crates" / "msb" / "src" / "main.rt"
    source.touch()
    os.utime(source, (time.time() + 1, time.time() + 1))
    place.run("build", "x")
    tests.check("built again", (place.top / "made").read_text() == "proved\n" * 2)


def try_unproved(tests: Tests) -> None:
    """It says each time that this is not the proved program, and asks on a terminal for one."""
    place = tests.place(False)
    (place.top / "tools" / "build_unproved.py").write_text(MAKES.format(path="out/unproved/msb",
                                                                        says="unproved"))
    (place.top / "tools" / "build.py").write_text(MAKES.format(path="crates/msb/out/msb",
                                                               says="proved"))
    for _ in range(2):
        ran = place.run("--unproved", "build", "x")
        tests.says("unproved", ran, 0, "this is not the proved program")
        tests.check("unproved text", ran.printed == "unproved build x\n", ran)
    tests.check("unproved, built once", (place.top / "made").read_text() == "unproved\n")
    terminal = Terminal(place, "build", "x")
    terminal.read(lambda seen: b"[p] " in seen)
    terminal.type(b"u\n")
    tests.check("question", terminal.end() == 0 and b"unproved build x" in terminal.seen,
                terminal.seen)
    terminal = Terminal(place, "build", "x")
    terminal.read(lambda seen: b"[p] " in seen)
    terminal.type(b"\n")
    terminal.end()
    tests.check("question, proved", b"\r\nproved build x" in terminal.seen, terminal.seen)


# ---- Pages ------------------------------------------------------------------------------------

COMPLETED = (
    ("msb bu", "build"),
    ("msb ch", "check"),
    ("msb --q", "--quiet"),
    ("msb --quiet ev", "eval"),
    ("msb build hello.proj --t", "--target"),
    ("msb build hello.proj --show ", "low"),
    ("msb trial 7 --", "--size --nodes"),
    ("msb build he", "hello.proj"),
    ("msb build --target ", ""),
)


def try_pages(tests: Tests) -> None:
    ran = subprocess.run([TOP / "tools" / "make_pages.py", "--check"], capture_output=True,
                         text=True)
    tests.check("pages are made from the words", ran.returncode == 0, ran.stdout)
    place = tests.place()
    script = ('source "$1"; compopt() { :; }; read -ra COMP_WORDS <<<"$2"; '
              '[[ $2 == *" " ]] && COMP_WORDS+=("");'
              'COMP_CWORD=$((${#COMP_WORDS[@]}-1)); _msb; echo "${COMPREPLY[*]}"')
    for line, wanted in COMPLETED:
        ran = subprocess.run(["bash", "-c", script, "bash", TOP / "tools" / "launcher" / "msb.bash",
                              line],
                             cwd=place.work, capture_output=True, text=True)
        tests.check(f"completion of `{line}`", ran.stdout.strip() == wanted and not ran.stderr, ran)
    if shutil.which("groff"):
        ran = subprocess.run(["groff", "-man", "-Tascii", "-ww", TOP / "docs" / "msb.1"],
                             capture_output=True, text=True)
        tests.check("man page", ran.returncode == 0 and not ran.stderr and len(ran.stdout) > 2000,
                    ran.stderr)


PARTS = (try_words, try_random_words, try_not_found, try_places, try_not_json, try_store_faults,
         try_full_disk, try_limits, try_circle, try_text, try_output_faults, try_end_by_signal,
         try_allocator, try_progress, try_interrupts, try_without_kit, try_builds, try_unproved,
         try_pages)


def main() -> int:
    if len(sys.argv) != 2 or not os.access(sys.argv[1], os.X_OK):
        print("usage: tests/launcher.py PROGRAM", file=sys.stderr)
        return 2
    memory = Path("/dev/shm")
    with tempfile.TemporaryDirectory(dir=memory if os.access(memory, os.W_OK) else None) as scratch:
        tests = Tests(Path(scratch), Path(sys.argv[1]).resolve())
        for part in PARTS:
            try:
                part(tests)
            except (OSError, ValueError, subprocess.SubprocessError) as error:
                tests.check(part.__name__, False, repr(error))
        print(f"{tests.passed} passed, {tests.failed} failed")
    return 1 if tests.failed else 0


if __name__ == "__main__":
    sys.exit(main())
