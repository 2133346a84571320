"""Calls of freeme and fmrun, for the scripts that compare programs with what `java` printed of them.

A program is a folder with a file expect.txt: classes/, there or one folder up, has its class files, ecj/ those that ecj made, expected.out what `java` printed. expect.txt gives the
main class, the words of fmrun (for `--input input` it is the file of the folder, for `--args` the text in the file args), and the status and, where
it is known, the report line of fmrun on the files read; where they are known, the lines of freeme and what fmrun reports of the files written. With the
line `class library: used` those class files of lib/classes that the program names are given too.
"""

import re
import resource
import signal
import subprocess
import sys
import tempfile
from contextlib import suppress
from pathlib import Path

from class_library import needed

NO_WORDS = "none"
NOT_SAFE = 78
# The entry of a pool that only a class with chains needs: the name of the method that frees one (JVMS 4.4.7).
CHAIN_ENTRY = b"\x01\x00\x09freeChain"


class Unended(Exception):
    """A call that didn't end by itself: a signal ended it, or it took too long."""


class Programs:
    """The two programs in a folder, and how long a call may take: in seconds of a processor, or without a limit."""

    def __init__(self, folder, seconds=None):
        self.folder, self.seconds = Path(folder), seconds

    def are_there(self):
        return all((self.folder / name).is_file() for name in ("freeme", "fmrun"))

    def call(self, name, *words):
        """Calls a program, and gives its status and what it wrote to standard output and to standard error."""
        streams = {"stdin": subprocess.DEVNULL, "stdout": subprocess.PIPE, "stderr": subprocess.PIPE}
        with subprocess.Popen([self.folder / name, *words], **streams) as started:
            if self.seconds:
                # A call that has ended already has no limit to set.
                with suppress(ProcessLookupError):
                    resource.prlimit(started.pid, resource.RLIMIT_CPU, (self.seconds, self.seconds))
            try:
                printed, reported = started.communicate(timeout=60 * self.seconds if self.seconds else None)
            except subprocess.TimeoutExpired:
                started.kill()
                raise Unended(f"{name} hadn't ended after {60 * self.seconds} seconds") from None
        if self.seconds and -started.returncode in (signal.SIGKILL, signal.SIGXCPU):
            raise Unended(f"{name} hadn't ended after {self.seconds} seconds of a processor, or was killed")
        if started.returncode < 0:
            raise Unended(f"{name} was ended by signal {-started.returncode}")
        return started.returncode, printed, reported

    def run(self, words, main, files):
        """Runs class files: the status of fmrun, what it printed, and what it reported on standard error."""
        status, printed, reported = self.call("fmrun", *words, main, *files)
        return status, printed, reported.decode(errors="replace").removesuffix("\n")

    def audit(self, folder, main, files):
        """Has freeme audit the class files of a folder: its status and its lines."""
        status, printed, reported = self.call("freeme", "--audit", folder, "--main", main, *files)
        return status, (reported if status else printed).decode(errors="replace").removesuffix("\n").split("\n")

    def free(self, out, main, files, *flags):
        """Has freeme write class files to a folder: its status and its lines, of a refusal the one on standard error."""
        status, printed, reported = self.call("freeme", "--out", out, "--main", main, *flags, *files)
        lines = reported if status else printed
        return status, lines.decode(errors="replace").removesuffix("\n").split("\n")


def sections(expect):
    """The headings of such a text, each with the indented lines below it."""
    found = []
    for line in expect.splitlines():
        if line.startswith("  "):
            found[-1][2].append(line.strip())
        else:
            heading, _, rest = line.partition(": ")
            found.append((heading, rest, []))
    return {heading: (rest, lines) for heading, rest, lines in found}


def files_of(folder):
    return sorted(folder.rglob("*.class"), key=lambda path: path.relative_to(folder).as_posix())


def classes_of(folder, kind="classes"):
    """The folder with the class files of a program: those that javac made, or of the kind "ecj" those of ecj."""
    return folder / kind if (folder / kind).is_dir() else folder.parent / kind


def words_of(folder, listed):
    words = [] if listed == NO_WORDS else listed.split()
    if "--input" in words:
        words[words.index("--input") + 1] = str(folder / "input")
    if (folder / "args").exists():
        words[words.index("--args")] = "--args=" + (folder / "args").read_text()
    return words


def number(report, name):
    """A number of a report line of fmrun, by its name."""
    found = re.search(rf"[;,] {name} (\d+)", report)
    return int(found[1]) if found else 0


def peak(report):
    """The peak words of a report line."""
    return number(report, "peak words")


def status_of(text):
    return int(text.split()[1])


def written_run(programs, folder, flags):
    """Has freeme write the program of a folder with these flags: its lines, and how a run of the files written ends, what it prints, and its report line."""
    due = sections((folder / "expect.txt").read_text())
    main = due["main class"][0]
    words = words_of(folder, due["words of fmrun before CLASS FILE..."][0])
    files = files_of(classes_of(folder))
    if "class library" in due:
        files += needed(files)
    with tempfile.TemporaryDirectory() as written:
        status, lines = programs.free(written, main, files, *flags)
        if status != 0:
            sys.exit(f"{folder}: freeme returned {status}: {lines[0]}")
        return lines, *programs.run(words, main, files_of(Path(written)))


def names_of(lines):
    """The classes of which lines of freeme report what is freed, in the order of the files."""
    return [re.sub(r": \d+ sites, \d+ frees$", "", line) for line in lines]


def is_chained(read, written, name):
    """Whether what is written of a class links objects in chains, which its pool then has an entry for."""
    return CHAIN_ENTRY in (written / f"{name}.class").read_bytes() and CHAIN_ENTRY not in read.read_bytes()


def wrong_audit(audited, files, written, names, flags):
    """What is wrong with an audit of class files as freeme wrote them with these flags, or None. Each is safe, but for two things that an audit knows
    nothing of: chains, for which the pool has entries that part 1 doesn't allow, and the narrower targets of calls with --rapid, without which an object may be
    out of reach (part 3) or in use (part 4) that isn't with them."""
    due = 0, [f"{name}: safe" for name in names]
    chained = [name for read, name in zip(files, names) if "--chains" in flags and is_chained(read, written, name)]
    if chained:
        due = NOT_SAFE, [f"refused: not-safe {chained[0]} 1"]
    elif "--rapid" in flags and audited[0] == NOT_SAFE and re.fullmatch(r"refused: not-safe .*\(.*\).* [34]", audited[1][0]):
        return None
    return None if audited == due else f"the audit: {audited!r} where {due!r} is due"


def differences(programs, folder, kind="classes", flags=()):
    """What differs of one program, a text for each thing, and its two report lines.

    It is run as it was read, then freed, with these flags, then run as it was written. It agrees where all that expect.txt gives is so, but
    for numbers that a flag may change, where an audit finds the files written safe, as far as the flags allow, and where they print the same and end
    alike, with no more words at their peak."""
    due = sections((folder / "expect.txt").read_text())
    main = due["main class"][0]
    words = words_of(folder, due["words of fmrun before CLASS FILE..."][0])
    printed = (folder / "expected.out").read_bytes()
    status, lines = due["fmrun on the files read"]
    files = files_of(classes_of(folder, kind))
    if "class library" in due:
        files += needed(files)
    wrong = []

    def compare(what, found, wanted):
        if found != wanted:
            wrong.append(f"{what}: {found!r} where {wanted!r} is due")

    before = programs.run(words, main, files)
    compare("status", before[0], status_of(status))
    compare("output", before[1], printed)
    if lines:
        compare("report", before[2], lines[0])
    with tempfile.TemporaryDirectory() as written:
        freed = programs.free(written, main, files, *flags)
        compare("freeme's status", freed[0], 0)
        if "freeme" in due and "--rapid" not in flags:
            compare("freeme's lines", freed[1], due["freeme"][1])
        if freed[0] == 0:
            text = wrong_audit(programs.audit(written, main, files), files, Path(written), names_of(freed[1]), flags)
            wrong += [text] if text else []
        after = programs.run(words, main, files_of(Path(written)))
    compare("status of the files written", after[0], status_of(status))
    compare("output of the files written", after[1], printed)
    if "fmrun on the files written" in due and not flags:
        compare("report of the files written", after[2], due["fmrun on the files written"][1][0])
    if peak(after[2]) > peak(before[2]):
        wrong.append("more words at the peak")
    return wrong, before[2], after[2]
