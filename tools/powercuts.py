"""The states that a power cut may leave of a film and its journal, by the model of a disk in crates/mkv_disk/specs/Image.antt.

strace records the calls of a run that change the two files, with their bytes. `states` then returns pairs of contents that a cut may
leave at any moment of such calls. If no change of a file waits for a sync, its content is left. Otherwise a content is left whose length
is between the least and the greatest since the last sync. It has anything in the bytes that were written since and past the least
length; all other bytes are as at that sync. Of the possible contents these are taken:

- each set of the writes;
- each write torn after its first byte, in the middle and before its last;
- written bytes filled with 00, FF or other bytes;
- each of these at the least length, the greatest and one between.

A new name of a file may be missing until its folder is synced."""
import itertools
import os
import re
import subprocess

CALLS = "openat,pwrite64,ftruncate,fsync"
LINE = re.compile(r"(\w+)\((.*)\)\s+= (-?\d+)(?:<[^>]*>)?")
MADE = re.compile(r'AT_FDCWD(?:<[^>]*>)?, "((?:\\x..)*)", [^,]*O_CREAT')
FILE = re.compile(r"\d+<((?:\\x..)*|[^>]*)>(?:, (.*))?")
WRITTEN = re.compile(r'"((?:\\x..)*)", \d+, (\d+)')
FILLS = (0x00, 0xFF, 0x5A)


def unescaped(text):
    return bytes.fromhex(text.replace("\\x", "")) if text.startswith("\\x") else text.encode()


def record(program, words, folder):
    """Runs the program in a folder. Returns its output, its status, and the calls that changed a file. Each call is a name and the
    change: `make`, `write` with an offset and bytes, `cut` with a length, or `sync`."""
    trace = folder + ".calls"
    run = subprocess.run(["strace", "-y", "-xx", "-s", "20000000", "-o", trace, "-e", f"trace={CALLS}", program, *words], cwd=folder, capture_output=True, text=True)
    found = []
    with open(trace, encoding="ascii", errors="replace") as file:
        for call, inner, answer in (line.groups() for line in map(LINE.fullmatch, file.read().splitlines()) if line):
            if int(answer) < 0:
                continue
            made = MADE.match(inner)
            if made:
                found.append((unescaped(made[1]).decode(), "make"))
            elif call != "openat":
                found.append(change(call, *FILE.match(inner).groups(), int(answer), folder))
    return run.stdout, run.returncode, found


def change(call, path, rest, answer, folder):
    """Returns a call on an open file, with the file's name in the folder."""
    name = os.path.relpath(unescaped(path).decode(), folder)
    if call == "fsync":
        return name, "sync"
    if call == "ftruncate":
        return name, "cut", int(rest)
    octets, at = WRITTEN.fullmatch(rest).groups()
    return name, "write", int(at), unescaped(octets)[:answer]


def changed(content, one):
    """Returns a content after a write (an offset and bytes) or a cut (a length)."""
    if one[0] == "cut":
        return content[:one[1]]
    at, octets = one[1:]
    return content[:at].ljust(at, b"\0") + octets + content[at + len(octets):]


class DiskFile:
    """A file as a disk keeps it: the content that is read, the one at its last sync, and the changes since."""

    def __init__(self, content):
        self.reads = content
        self.sync()

    def sync(self):
        self.synced, self.pending = self.reads, []
        self.least = self.greatest = len(self.reads)

    def do(self, one):
        self.reads = changed(self.reads, one)
        self.pending.append(one)
        self.least, self.greatest = min(self.least, len(self.reads)), max(self.greatest, len(self.reads))

    def writes(self):
        return [one for one in self.pending if one[0] == "write"]

    def is_image(self, content):
        """Checks whether a cut may leave this content."""
        if not self.least <= len(content) <= self.greatest:
            return False
        found, was = bytearray(content[:self.least]), bytearray(self.synced[:self.least])
        for _, at, octets in self.writes():
            behind = min(at + len(octets), self.least)
            found[at:behind] = was[at:behind] = bytes(max(behind - at, 0))
        return found == was

    def torn(self):
        """Yields lists of calls since the last sync: some of them, whole or in part."""
        most = 5
        subsets = itertools.product((False, True), repeat=len(self.pending)) if len(self.pending) <= most else (
            [k < count for k in range(len(self.pending))] for count in range(len(self.pending) + 1))
        for taken in subsets:
            yield [one for one, is_taken in zip(self.pending, taken) if is_taken]
        for number, one in enumerate(self.pending):
            if one[0] == "write":
                _, at, octets = one
                for cut in sorted({1, len(octets) // 2, len(octets) - 1} - {0, len(octets)}):
                    yield self.pending[:number] + [("write", at, octets[:cut])]
                    yield self.pending[:number] + [("write", at + cut, octets[cut:])]
                for fill in FILLS:
                    yield self.pending[:number] + [("write", at, bytes([fill]) * len(octets))]

    def images(self):
        """Returns some contents that a cut may leave, each once."""
        if not self.pending:
            return [self.synced]
        found = dict.fromkeys([self.synced, self.reads])
        for calls in self.torn():
            content = self.synced
            for one in calls:
                content = changed(content, one)
            for length in {self.least, (self.least + self.greatest) // 2, self.greatest, len(content)}:
                found[content[:length].ljust(length, b"\xA5")] = None
        return [content for content in found if self.is_image(content)]


class Disk:
    """A film and its journal, which may be missing, and whether the folder certainly has the journal's name."""

    def __init__(self, film, sidecar, name):
        self.name = name
        self.film = DiskFile(film)
        self.sidecar = DiskFile(sidecar) if sidecar is not None else None
        self.is_named = True

    def do(self, call):
        """Performs a recorded call."""
        name, what, *rest = call
        file = self.film if name == self.name else self.sidecar
        if what == "make":
            self.sidecar, self.is_named = DiskFile(b""), False
        elif name == ".":
            self.is_named = True
        elif what == "sync":
            file.sync()
        else:
            file.do((what, *rest))

    def read(self):
        return self.film.reads, self.sidecar.reads if self.sidecar else None

    def images(self):
        """Returns pairs of contents that a cut may leave now."""
        sidecars = self.sidecar.images() if self.sidecar else [None]
        return list(itertools.product(self.film.images(), sidecars if self.is_named else [*sidecars, None]))


def states(disk, calls):
    """Returns pairs of contents that a cut may leave before, between and after these calls, each once, with the number of calls
    before it."""
    found = dict.fromkeys(disk.images(), 0)
    for number, call in enumerate(calls):
        disk.do(call)
        for pair in disk.images():
            found.setdefault(pair, number + 1)
    return found
