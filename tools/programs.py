"""The programs of this checkout: the proved one, which tools/build and `rt ci` leave, and an unproved one for first trials and for checks,
which is made in a minute or two.

The kit's `rt try` compiles the sources without proving them, with checks at run time, runs the program once and removes it. While it
runs, the program is below the TMPDIR that it was given. So it gets a merge of many small blocks to do, and the program is copied
meanwhile."""
import fcntl
import importlib.machinery
import importlib.util
import os
import shutil
import signal
import subprocess
import sys
import tempfile
import time

ROOT = os.path.dirname(os.path.dirname(os.path.realpath(__file__)))
PROVED = os.path.join(ROOT, "crates/mkv_cli/out/mkv_cli")
ROOM = os.path.join(ROOT, "out/unproved")
UNPROVED = os.path.join(ROOM, "mkvsuite")
BUILD = os.path.join(ROOT, "tools/build")
CANT = 125

HEAD = bytes.fromhex("1A45DFA38B4282886D6174726F736B61 1853806701FFFFFFFFFFFFFF 1654AE6B94AE92D7810173C5810583810286 86415F4F505553")


def say(text):
    print(f"{os.path.relpath(sys.argv[0], os.getcwd())}: {text}", file=sys.stderr, flush=True)


def tool(name):
    """Returns the tool `name` of this checkout as a module."""
    sys.dont_write_bytecode = True
    loader = importlib.machinery.SourceFileLoader(name, os.path.join(ROOT, "tools", name))
    module = importlib.util.module_from_spec(importlib.util.spec_from_loader(name, loader))
    loader.exec_module(module)
    return module


# ---- the program to run

def sources(folders):
    yield os.path.join(ROOT, "crates.txt")
    for crate in os.scandir(os.path.join(ROOT, "crates")):
        for folder in folders:
            for at, _, names in os.walk(os.path.join(crate.path, folder)):
                yield from (os.path.join(at, name) for name in names)


def is_newest(program, folders=("src", "specs", "proofs")):
    """Checks whether a program exists, and no source of it is newer."""
    try:
        made = os.stat(program).st_mtime
    except FileNotFoundError:
        return False
    return all(os.stat(path).st_mtime <= made for path in sources(folders))


def build():
    """Returns the proved program. Builds it if it is missing or a source is newer."""
    if not is_newest(PROVED) and subprocess.run([BUILD]).returncode:
        sys.exit(CANT)
    return PROVED


def newest():
    """Returns the proved program if no source is newer. Otherwise returns the unproved one, which is made if necessary."""
    if is_newest(PROVED):
        return PROVED
    if not shutil.which("rt"):
        say("there is no `rt` on the PATH: the kit must be installed (README.md)")
        sys.exit(CANT)
    if not made():
        say("this kit leaves no unproved program, so the proved one is built: tools/build")
        return build()
    say("this program isn't proved. tools/build proves it and builds it: 40 minutes on four processors, 6 GB of memory")
    return UNPROVED


# ---- the unproved one

def sample(blocks):
    """Returns a file with `blocks` SimpleBlocks of one byte, of one track, in Clusters of a hundred."""
    def block(k):
        return b"\xA3\x85\x81" + k.to_bytes(2, "big") + b"\x80\xAA"

    def cluster(c):
        body = b"\xE7\x84" + (100 * c).to_bytes(4, "big") + b"".join(map(block, range(100)))
        return b"\x1F\x43\xB6\x75\x01" + len(body).to_bytes(7, "big") + body

    return HEAD + b"".join(map(cluster, range(blocks // 100)))


def program_in(room):
    """Returns the program below a folder, once it runs."""
    for folder, _, names in os.walk(room):
        if "program" in names and "rattle-native" in folder and os.path.exists(f"{room}/out.mkv"):
            return os.path.join(folder, "program")
    return None


class Progress:
    """On a terminal, a line with the time so far; elsewhere, one line at the beginning."""

    def __init__(self):
        self.begun, self.terminal = time.monotonic(), sys.stderr.isatty()
        if not self.terminal:
            say("making an unproved program, which takes a minute or two")

    def show(self):
        if self.terminal:
            sys.stderr.write(f"\r\033[Kmaking an unproved program: {time.monotonic() - self.begun:.0f} s of some 80")
            sys.stderr.flush()

    def close(self):
        if self.terminal:
            sys.stderr.write("\r\033[K")
            sys.stderr.flush()


def spare_a_check(ran):
    """Ends the check that `rt try` runs beside the compiler: it only looks for names that a proof would refuse, and takes a
    gigabyte."""
    try:
        with open(f"/proc/{ran.pid}/task/{ran.pid}/children", encoding="utf-8") as file:
            children = file.read().split()
        for child in children:
            with open(f"/proc/{child}/cmdline", "rb") as file:
                if file.read().split(b"\0")[1:2] == [b"check"]:
                    os.kill(int(child), signal.SIGKILL)
    except OSError:
        pass


def end(ran):
    """Ends `rt`, which then ends its children."""
    ran.terminate()
    try:
        ran.wait(10)
    except subprocess.TimeoutExpired:
        os.killpg(ran.pid, signal.SIGKILL)
        ran.wait()


def copied_while_it_runs(room):
    """Compiles the sources, runs the program, and copies it meanwhile. Returns the copy, or None, and the output."""
    words = ["rt", "try", "--seconds", "60", "--", "merge", "-o", f"{room}/out.mkv", f"{room}/in.mkv"]
    progress, copy = Progress(), None
    with open(f"{room}/said", "w+", encoding="utf-8", errors="replace") as said:
        ran = subprocess.Popen(words, cwd=os.path.join(ROOT, "crates/mkv_cli"), env={**os.environ, "TMPDIR": room}, stdin=subprocess.DEVNULL,
                               stdout=said, stderr=said, start_new_session=True)
        try:
            while ran.poll() is None and copy is None:
                progress.show()
                spare_a_check(ran)
                program = program_in(room)
                if program:
                    copy = shutil.copy2(program, f"{room}/mkvsuite")
                time.sleep(0.05)
        finally:
            end(ran)
            progress.close()
        said.seek(0)
        return copy, said.read()


def made():
    """Makes the unproved program if it is missing or a source is newer. Returns whether it exists then."""
    os.makedirs(ROOM, exist_ok=True)
    signal.signal(signal.SIGTERM, lambda *_: sys.exit(128 + signal.SIGTERM))
    with open(os.path.join(ROOM, "lock"), "w", encoding="utf-8") as lock:
        fcntl.flock(lock, fcntl.LOCK_EX)
        if is_newest(UNPROVED, ("src", "specs")):
            return True
        for left in os.listdir(ROOM):
            if left.startswith("room-"):
                shutil.rmtree(os.path.join(ROOM, left), ignore_errors=True)
        with tempfile.TemporaryDirectory(prefix="room-", dir=ROOM) as room:
            with open(f"{room}/in.mkv", "wb") as file:
                file.write(sample(20000))
            begun = time.time()
            copy, said = copied_while_it_runs(room)
            if not copy:
                sys.stderr.write(said)
                return False
            # a source that changed meanwhile is newer than the program
            os.utime(copy, (begun, begun))
            os.replace(copy, UNPROVED)
    return True
