"""The crates of this checkout as tools prove them beside the gate: their list, what is kept of them, and the proof of each, over the
statements of the crates below it, by the kit's `rattle`.

Proved crates are kept in a folder of the user's cache, which may be removed at any time, so a stopped run goes on later. Crates that the
gate proved on this machine, from the same files over the same libraries, are taken from its own cache by the kit's rules."""
import collections
import concurrent.futures
import contextlib
import fcntl
import hashlib
import importlib.machinery
import importlib.util
import os
import shutil
import signal
import subprocess
import sys
import tempfile
import time

ROOT = os.path.dirname(os.path.dirname(os.path.realpath(__file__)))
CACHE = os.environ.get("XDG_CACHE_HOME") or os.path.join(os.path.expanduser("~"), ".cache")
ROOM = os.path.join(CACHE, "mkvsuite-build", hashlib.sha256(ROOT.encode()).hexdigest()[:16])
PARTS = ("src", "specs", "proofs")
# memory in bytes that the check of a crate usually takes
ONE_CHECK = 1_600_000_000
CANT = 125
RUNNING = set()

# `files` are the files that a check reads: their paths in the checkout, and their bytes
Crate = collections.namedtuple("Crate", "name own_deps kit_deps below stamp files")


# ---- the crates

def kit():
    """Returns the folder of the kit."""
    if not shutil.which("rt"):
        sys.exit("there is no `rt` on the PATH: the kit must be installed (README.md)")
    return os.path.dirname(subprocess.run(["rt", "doc"], capture_output=True, text=True, check=True).stdout.strip())


def kit_tools():
    """Returns the kit's `rt`, as a module."""
    loader = importlib.machinery.SourceFileLoader("kit_rt", os.path.join(kit(), "bin", "rt"))
    made = importlib.util.module_from_spec(importlib.util.spec_from_loader("kit_rt", loader))
    loader.exec_module(made)
    return made


def folder_of(name):
    return os.path.join(ROOT, "crates", name)


def listed():
    """Returns the names after each crate of crates.txt."""
    with open(os.path.join(ROOT, "crates.txt"), encoding="utf-8") as file:
        lines = [line.split("#")[0] for line in file]
    return {line.split(":")[0].split()[0]: line.split(":")[1].split() for line in lines if ":" in line}


def texts(name):
    """Yields the files of a crate that a check reads, with their bytes, in a fixed order."""
    found = []
    for part in PARTS:
        for at, _, names in os.walk(os.path.join(folder_of(name), part)):
            found += [os.path.join(at, it) for it in names]
    for path in sorted(found):
        with open(path, "rb") as file:
            yield os.path.relpath(path, ROOT), file.read()


def crates(*tops):
    """Returns the crates `tops` and those that they depend on, lowest first."""
    names, found = listed(), {}
    with open(os.path.join(kit(), "KIT-ID"), encoding="utf-8") as file:
        identity = file.read()

    def add(name):
        if name in found:
            return
        own = [it for it in names[name] if it in names]
        for it in own:
            add(it)
        below = list(dict.fromkeys(low for it in own for low in [*found[it].below, it]))
        files = list(texts(name))
        stamp = hashlib.sha256(repr((identity, names[name], files, [found[it].stamp for it in own])).encode()).hexdigest()
        found[name] = Crate(name, own, [it for it in names[name] if it not in names], below, stamp, files)

    for name in tops:
        add(name)
    return found


def is_program(crate):
    return any(path == f"crates/{crate.name}/src/main.rt" for path, _ in crate.files)


def lines_of(crate):
    return sum(text.count(b"\n") for _, text in crate.files)


# ---- what is kept

@contextlib.contextmanager
def locked():
    """Keeps the cache for one run at a time, and removes from it what isn't a crate any more."""
    os.makedirs(ROOM, exist_ok=True)
    with open(os.path.join(ROOM, "lock"), "w", encoding="utf-8") as lock:
        try:
            fcntl.flock(lock, fcntl.LOCK_EX | fcntl.LOCK_NB)
        except BlockingIOError:
            sys.stderr.write("waiting for another run that proves in this checkout\n")
            fcntl.flock(lock, fcntl.LOCK_EX)
        for name in set(os.listdir(ROOM)) - set(listed()) - {"lock"}:
            shutil.rmtree(os.path.join(ROOM, name), ignore_errors=True)
        yield


def library(name):
    return os.path.join(ROOM, name, f"{name}.rlib")


def is_kept(crate):
    try:
        with open(os.path.join(ROOM, crate.name, "stamp"), encoding="utf-8") as file:
            return file.read() == crate.stamp
    except OSError:
        return False


def begin(crate):
    """Makes an empty folder for a crate's proof."""
    shutil.rmtree(os.path.join(ROOM, crate.name), ignore_errors=True)
    os.makedirs(os.path.join(ROOM, crate.name))


def keep(crate):
    """Keeps a crate's proof. Returns the reason if it can't."""
    if list(texts(crate.name)) != crate.files:
        return f"{crate.name} changed while it was proved\n"
    path = os.path.join(ROOM, crate.name, "stamp")
    with open(f"{path}.new", "w", encoding="utf-8") as file:
        file.write(crate.stamp)
    os.replace(f"{path}.new", path)
    return None


def as_the_kit_has_it(room, libraries):
    """Sets up a checkout whose crates have their libraries in our cache. Returns the kit's view of each, and the kit's cache."""
    tools, known = kit_tools(), {}
    for name in ("crates.txt", "HANDLES"):
        shutil.copy2(os.path.join(ROOT, name), room)
    for name in listed():
        os.makedirs(f"{room}/crates/{name}/out")
        os.symlink(os.path.join(ROOM, name), f"{room}/crates/{name}/out/rlib")
        for part in PARTS:
            if os.path.isdir(os.path.join(folder_of(name), part)):
                os.symlink(os.path.join(folder_of(name), part), f"{room}/crates/{name}/{part}")
    tools.Crate.allowed = tools.handles_of(room)
    seen = {it.name: tools.Crate(f"{room}/crates/{it.name}", room, known) for it in libraries}
    return seen, tools.Kept(list(seen.values()))


def take_from_the_gate(libraries):
    """Keeps, lowest first, the libraries that the gate has proved, if the kit gives them: the same files, over the same
    libraries."""
    have = set()
    with tempfile.TemporaryDirectory(prefix="gate-", dir=ROOM) as room:
        seen, gate = as_the_kit_has_it(room, libraries)
        for crate in libraries:
            if not have.issuperset(crate.below):
                continue
            was_kept = is_kept(crate)
            if not was_kept:
                begin(crate)
            if was_kept or gate.give(seen[crate.name], False, gate.key(seen[crate.name])) and keep(crate) is None:
                gate.is_built(seen[crate.name])
                have.add(crate.name)


# ---- one crate

def words(crate, at):
    """Returns the arguments of `rattle` for a crate: its dependencies, and the folder of the kit's logic."""
    said = ["--crate-name", crate.name, "src/main.rt" if is_program(crate) else "src/lib.rt"]
    for name in ["std", *crate.kit_deps]:
        said += ["--extern", f"{name}={at}/rlibs/{name}.rlib"]
    said += ["-L", f"dependency={at}/rlibs"]
    for name in crate.own_deps:
        said += ["--extern", f"{name}={library(name)}"]
    for name in crate.below:
        said += ["-L", f"dependency={os.path.dirname(library(name))}"]
    return [*said, "--antt-project", f"{at}/rattle/logic/antt-project.json", "--logic-built", f"{at}/logic_built", "--jobs", "1"]


def run(command, folder, limit=None):
    """Runs a command in a folder, for at most `limit` seconds, and returns its result."""
    child = subprocess.Popen(command, cwd=folder, stdin=subprocess.DEVNULL, stdout=subprocess.PIPE, stderr=subprocess.STDOUT, text=True,
                             errors="replace", start_new_session=True)
    RUNNING.add(child)
    try:
        said = child.communicate(timeout=limit)[0]
    finally:
        if child.returncode is None:
            end_one(child)
            child.communicate()
        RUNNING.discard(child)
    return subprocess.CompletedProcess(command, child.returncode, said)


def called(crate, *command):
    """Runs a command in the folder of a crate. Returns its output if it failed."""
    ran = run(command, folder_of(crate.name))
    return f"{crate.name} is not proved:\n{ran.stdout}" if ran.returncode else None


def prove(crate, at):
    """Proves a library, and keeps it."""
    begin(crate)
    said = called(crate, f"{at}/bin/rattle", "build", *words(crate, at), "--statements", "-o", library(crate.name))
    return keep(crate) if said is None else said


# ---- all of them

class Progress:
    """One line on a terminal, which is overwritten; elsewhere, a line for each step."""

    def __init__(self, all_crates):
        self.lines = {it.name: lines_of(it) for it in all_crates}
        self.done, self.kept, self.begun, self.terminal = set(), set(), time.monotonic(), sys.stderr.isatty()

    def ended(self, name, was_kept=False):
        self.done.add(name)
        self.kept |= {name} if was_kept else set()
        if not was_kept:
            self.show(name)

    def left(self):
        """Returns the estimated number of minutes left, by the number of lines proved."""
        proved = sum(self.lines[it] for it in self.done - self.kept)
        left = sum(lines for it, lines in self.lines.items() if it not in self.done)
        return (time.monotonic() - self.begun) * left / proved / 60 if proved else None

    def show(self, name):
        left = self.left()
        text = f"proved {len(self.done)} of {len(self.lines)}: {name}" + (f"; some {left:.0f} minutes left" if left else "")
        if self.terminal:
            text = f"\r\033[K{text[:os.get_terminal_size(2).columns - 1]}"
        sys.stderr.write(text if self.terminal else f"{text}\n")
        sys.stderr.flush()

    def close(self):
        if self.terminal:
            sys.stderr.write("\r\033[K")


def lanes():
    """Returns the number of checks to run at once, by processors and memory."""
    with open("/proc/meminfo", encoding="utf-8") as file:
        free = next(int(line.split()[1]) * 1024 for line in file if line.startswith("MemAvailable"))
    return max(1, min(len(os.sched_getaffinity(0)), free // ONE_CHECK))


def heights(found):
    """Returns the number of lines on the longest way up from each crate: the crate with the largest number goes first."""
    height = {name: lines_of(crate) for name, crate in found.items()}
    for name in reversed(list(found)):
        for low in found[name].own_deps:
            height[low] = max(height[low], height[name] + lines_of(found[low]))
    return height


def kept_first(libraries, progress):
    """Counts the crates that an earlier run or the gate has proved."""
    if not all(map(is_kept, libraries)):
        # (a kit with another form of `rt` gives nothing)
        with contextlib.suppress(AttributeError, TypeError):
            take_from_the_gate(libraries)
    for crate in filter(is_kept, libraries):
        progress.ended(crate.name, was_kept=True)


def prove_libraries(found, at, progress, at_once):
    """Proves all libraries among these crates, each after the crates below it. Returns the output of the first that failed."""
    libraries = [it for it in found.values() if not is_program(it)]
    kept_first(libraries, progress)
    progress.show("beginning")
    height, running = heights(found), {}
    left = sorted((it.name for it in libraries if it.name not in progress.done), key=lambda it: -height[it])
    with concurrent.futures.ThreadPoolExecutor(at_once) as pool:
        while left or running:
            ready = [it for it in left if progress.done.issuperset(found[it].own_deps)]
            for name in ready[:at_once - len(running)]:
                left.remove(name)
                running[pool.submit(prove, found[name], at)] = name
            for ended in concurrent.futures.wait(running, return_when=concurrent.futures.FIRST_COMPLETED).done:
                if ended.result() is not None:
                    end_all()
                    return ended.result()
                progress.ended(running.pop(ended))
    return None


def end_one(child):
    with contextlib.suppress(ProcessLookupError):
        os.killpg(child.pid, signal.SIGKILL)


def end_all():
    for child in list(RUNNING):
        end_one(child)


def end(*_signal):
    """Ends all running commands."""
    end_all()
    os._exit(CANT)


def may_be_ended():
    """Makes a signal end the running commands, too."""
    signal.signal(signal.SIGTERM, end)
    signal.signal(signal.SIGINT, end)
