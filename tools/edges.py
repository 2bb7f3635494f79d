"""Trials at the edge of the system: a system call fails or is the last one, two runs have one file, other users own files, and folders
take no new file. tools/try-edge runs them.

A trial is a function of a fresh folder that returns the faults that it finds, one line each."""
import collections
import contextlib
import os
import re
import resource
import shutil
import stat
import struct
import subprocess
import time

FAULTS = ("signal=KILL", "error=EIO", "error=ENOSPC", "error=EINTR", "error=EAGAIN", "error=EMFILE")
OF_OPENING = ("error=EMFILE",)
CALLS = "statx,openat,flock,fchown,fchmod,fsync,pread64,pwrite64,ftruncate,rename,unlink,write,close,fcntl,readlink,getcwd"
OLD = b"an old file that has another name" * 9
STRANGER = 65534
JOURNAL = "film.mkv.mkvedit"
# end of the bytes at the front of a new Matroska file that are written last: the Segment's size and the SeekHead
FRONT = 308

# input of a run: arguments, files, the outputs among them, and other names or links of files; an edit is of film.mkv
Job = collections.namedtuple("Job", "words files outputs links", defaults=((), {}))
Ran = collections.namedtuple("Ran", "status said")


# ---- files

def bytes_of(path):
    try:
        with open(path, "rb") as file:
            return file.read()
    except FileNotFoundError:
        return None


def put(path, content, mode=0o644, user=0):
    with open(path, "wb") as file:
        file.write(content)
    os.chown(path, user, user)
    os.chmod(path, mode)


def fresh(folder):
    shutil.rmtree(folder, ignore_errors=True)
    os.makedirs(folder)


def lay(folder, job):
    """Makes the files of a job, their other names, and links. Only the owner may read a live journal."""
    fresh(folder)
    for name, content in job.files.items():
        put(os.path.join(folder, name), content, 0o600 if is_live(content) else 0o644)
    for name, other in job.links.items():
        if other.startswith("-> "):
            os.symlink(other.removeprefix("-> "), os.path.join(folder, name))
        else:
            os.link(os.path.join(folder, other), os.path.join(folder, name))


def traced(calls, to="/dev/null"):
    """Returns the command that writes the calls `calls` of a program to the file `to`."""
    return ["strace", "-qq", "-o", to, "-e", f"trace={calls}"]


def injected(inject):
    """Returns the command that runs a program with a fault at a call, as strace has them."""
    return [*traced(inject.split(":")[0]), "-e", f"inject={inject}"]


class Tried:
    """The program, a folder to try it in, and its small files."""

    def __init__(self, program, room, small):
        self.program, self.folder, self.trace = program, os.path.join(room, "edge"), os.path.join(room, "edge.calls")
        self.film, self.other, self.record = small["merged"], small["small"], small["record"]
        self.edit = ["propedit", "film.mkv", "-e", "track:1", "-s", "name=Hi"]

    def run(self, words, inject=None, trace=None, **how):
        around = injected(inject) if inject else traced(CALLS, trace) if trace else []
        ran = subprocess.run([*around, self.program, *words], stdout=subprocess.PIPE, stderr=subprocess.PIPE, cwd=how.pop("cwd", self.folder), timeout=60, **how)
        return Ran(ran.returncode, ran.stdout.decode(errors="replace") + ran.stderr.decode(errors="replace"))

    def start(self, words, inject=None):
        around = injected(inject) if inject else []
        return subprocess.Popen([*around, self.program, *words], stdout=subprocess.PIPE, cwd=self.folder)

    def at(self, name):
        return os.path.join(self.folder, name)

    def read(self, name):
        return bytes_of(self.at(name))

    def mode(self, name):
        return stat.S_IMODE(os.stat(self.at(name)).st_mode)


# ---- a system call that fails

def places(tried, job):
    """Returns the calls of a run, from the first on that examines a file, each with its number. Also returns the end and the
    files."""
    lay(tried.folder, job)
    ran, counted, found, begun = tried.run(job.words, trace=tried.trace), collections.Counter(), [], False
    with open(tried.trace, encoding="utf-8", errors="replace") as file:
        for call in re.findall(r"^(\w+)\(", file.read(), re.MULTILINE):
            counted[call] += 1
            begun = begun or call == "statx"
            if begun:
                found.append((call, counted[call]))
    return found, ran, {name: tried.read(name) for name in os.listdir(tried.folder)}


def each_fault(tried, job):
    """Runs a job with each fault at each call. Yields the fault, the end of the run, and the end and the files of a good run."""
    found, good, left = places(tried, job)
    if good.status:
        yield "no fault", good, good, left
    for call, number in found:
        for fault in FAULTS:
            if fault in OF_OPENING and call != "openat":
                continue
            lay(tried.folder, job)
            what = f"{call} {number} {fault}"
            try:
                yield what, tried.run(job.words, f"{call}:{fault}:when={number}"), good, left
            except subprocess.TimeoutExpired:
                yield what + " (no end)", Ran(None, ""), good, left


def wrote(said):
    """Returns the outputs that a run has reported as written."""
    return re.findall(r"^wrote ([^\n:]+)", said, re.MULTILINE)


def faults_of_outputs(tried, job, ran, good, left):
    """Returns the faults after a run that makes outputs."""
    for name, content in job.files.items():
        if name not in job.outputs and tried.read(name) != content:
            yield f"{name} has changed"
    for name, other in job.links.items():
        if not other.startswith("-> ") and tried.read(name) != job.files[other]:
            yield f"{name}, another name of {other}, has changed"
    for name in wrote(ran.said):
        if tried.read(name) != left[name]:
            yield f"{name} isn't complete, but was reported as written"
    for name in job.outputs:
        now = tried.read(name)
        if now != job.files.get(name) and (now is None or not is_begun(now, left[name], front_of(name, job.links))):
            yield f"{name} is neither old nor a first part"
    if ran.status == 0 and (ran.said != good.said or any(tried.read(name) != left[name] for name in job.outputs)):
        yield "status 0, but not all is done"
    if ran.status not in (0, 4, -9, 137):
        yield f"status {ran.status}"


def front_of(name, links):
    """Returns the number of bytes at the front of an output some of which are written last. A link may give it a Matroska name."""
    names = [name, *(link for link, other in links.items() if other == f"-> {name}")]
    return FRONT if any(it.endswith(".mkv") for it in names) else 0


def is_begun(content, whole, front):
    """Checks whether `content` is a first part of an output, except for `front` bytes."""
    return len(content) <= len(whole) and content[front:] == whole[front:len(content)]


def is_live(journal):
    return journal is not None and journal[:1] == b"\xa5"


def has_record(journal):
    """Checks whether a journal has a record, or the rest of one, after its gate."""
    return journal is not None and len(journal) > 1


def faults_of_mode(tried, before):
    """Returns the fault if only the owner can read a journal without a record, or if others can read one. A record that was there
    before, in the journal `before`, doesn't count."""
    journal = tried.read(JOURNAL)
    if journal is not None and not (has_record(journal) and journal == before):
        wanted = 0o600 if has_record(journal) else 0o644
        if tried.mode(JOURNAL) != wanted:
            yield f"a journal of {len(journal)} bytes has the mode {tried.mode(JOURNAL):o}"


def faults_of_edits(tried, job, ran, good, left):
    """Returns the faults after a run that edits film.mkv, and after a recovery of it."""
    # a film beside a live record must become the new one
    old = None if is_live(job.files.get(JOURNAL)) else job.files["film.mkv"]
    new, now, pending = left["film.mkv"], tried.read("film.mkv"), is_live(tried.read(JOURNAL))
    if now not in (old, new) and not pending:
        yield "the film is torn, and no record is live"
    if ran.status == 0 and (now != new or pending or ran.said != good.said):
        yield "status 0, but not all is done"
    if ran.said == good.said and now != new:
        yield f"printed {ran.said!r} for another film"
    if ran.status not in (0, 4, -9, 137):
        yield f"status {ran.status}"
    # a journal without a record has its mode after the next run
    if has_record(tried.read(JOURNAL)):
        yield from faults_of_mode(tried, job.files.get(JOURNAL))
    again = tried.run(["recover", "film.mkv"])
    if again.status or tried.read("film.mkv") not in (old, new):
        yield f"a recovery prints {again.said!r}, and the film is neither old nor new"
    yield from faults_of_mode(tried, job.files.get(JOURNAL))


def output_jobs(tried):
    film = {"film.mkv": tried.film, "a.mkv": tried.other}
    merge = ["merge", "-o", "out.mkv", "film.mkv"]
    over = {**film, "out.mkv": OLD}
    yield "merge", Job(merge, film, ("out.mkv",))
    yield "merge over a file with two names", Job(merge, over, ("out.mkv",), {"kept": "out.mkv"})
    yield "merge over a link", Job(merge, {**film, "there": OLD}, ("there",), {"out.mkv": "-> there", "kept": "there"})
    yield "merge in parts", Job([*merge[:3], "--split", "timestamps:0:00:00.02", "film.mkv"], {**film, "out-001.mkv": OLD}, ("out-001.mkv", "out-002.mkv"), {"kept": "out-001.mkv"})
    yield "extract", Job(["extract", "film.mkv", "tracks", "--raw", "0:x"], {**film, "x": OLD}, ("x",), {"kept": "x"})
    yield "extract of times", Job(["extract", "film.mkv", "timestamps_v2", "0:x"], film, ("x",))


def edit_jobs(tried, half, record):
    film = {"film.mkv": tried.film}
    yield "propedit", Job(tried.edit, film)
    yield "propedit with a quiet journal", Job(tried.edit, {**film, JOURNAL: b"\0"})
    yield "propedit over an older record", Job(tried.edit, {**film, JOURNAL: b"\0" + record[1:]})
    yield "reindex", Job(["reindex", "film.mkv"], film)
    yield "recover", Job(["recover", "film.mkv"], {"film.mkv": half, JOURNAL: record})


def stopped_edit(tried):
    """Returns the film and its journal after an edit that is stopped in its writes to the film."""
    lay(tried.folder, Job(tried.edit, {"film.mkv": tried.film}))
    tried.run(tried.edit, "pwrite64:signal=KILL:when=5")
    return tried.read("film.mkv"), tried.read(JOURNAL)


def errors(tried):
    """Tries each fault at each call of the system: nothing is lost, and nothing false is reported."""
    for what, job in output_jobs(tried):
        yield what, [f"{fault}: {wrong}" for fault, ran, good, left in each_fault(tried, job) for wrong in faults_of_outputs(tried, job, ran, good, left)]
    half, record = stopped_edit(tried)
    for what, job in edit_jobs(tried, half, record):
        yield what, [f"{fault}: {wrong}" for fault, ran, good, left in each_fault(tried, job) for wrong in faults_of_edits(tried, job, ran, good, left)]


# ---- results

def wanted(ran, status, said):
    """Returns the difference to the expected status and output."""
    if (ran.status, ran.said) != (status, said):
        yield f"status {ran.status}, {ran.said!r}, not {status}, {said!r}"


def same(what, found, right):
    if found != right:
        yield f"{what} isn't as expected"


def unsynced_folder(tried):
    """A folder that can't be synced is ignored; another failure there is a fault."""
    for error, status, said in (("EINVAL", 0, "edited film.mkv\n"), ("EOPNOTSUPP", 0, "edited film.mkv\n"), ("EIO", 4, "fault: disk\n")):
        lay(tried.folder, Job(tried.edit, {"film.mkv": tried.film}))
        yield from wanted(tried.run(tried.edit, f"fsync:error={error}:when=3"), status, said)


def lock_that_fails(tried):
    """Only a lock that isn't supported is ignored."""
    for error, status, said in (("EOPNOTSUPP", 0, "edited film.mkv\n"), ("ENOSYS", 0, "edited film.mkv\n"), ("EIO", 4, "fault: disk\n"), ("ENOLCK", 4, "fault: disk\n")):
        lay(tried.folder, Job(tried.edit, {"film.mkv": tried.film}))
        yield from wanted(tried.run(tried.edit, f"flock:error={error}"), status, said)


# ---- two runs

def ends(*runs):
    return [Ran(run.wait(), run.stdout.read().decode()) for run in runs]


def pair(tried, first, second, before):
    """Two runs have one output, 20 times: it must be the output of one of them."""
    alone = []
    for words in (first, second):
        lay(tried.folder, Job(words, {"film.mkv": tried.film, "a.mkv": tried.other}))
        tried.run(words)
        alone.append(tried.read("o"))
    for _ in range(20):
        lay(tried.folder, Job(first, {"film.mkv": tried.film, "a.mkv": tried.other, **({} if before is None else {"o": before})}))
        found = ends(*(tried.start(words) for words in (first, second)))
        if tried.read("o") not in alone or any(ran.status not in (0, 4) for ran in found):
            yield f"{first[0]}: the output is of neither run: {found}"


def two_runs(tried):
    merges = (["merge", "-o", "o", "film.mkv"], ["merge", "-o", "o", "a.mkv"])
    for before in (None, b"", OLD):
        yield from pair(tried, *merges, before)
        yield from pair(tried, ["extract", "film.mkv", "tracks", "--raw", "0:o"], ["extract", "a.mkv", "timestamps_v2", "0:o"], before)


def run_beside_run(tried):
    """An output that a run is writing is replaced by another run, and can't be edited."""
    lay(tried.folder, Job([], {"film.mkv": tried.film, "a.mkv": tried.other}))
    slow = tried.start(["merge", "-o", "o", "film.mkv"], "pwrite64:delay_enter=300000")
    until(lambda: tried.read("o") is not None)
    time.sleep(0.1)
    yield from wanted(tried.run(["recover", "o"]), 4, "fault: disk\n")
    yield from wanted(tried.run(["merge", "-o", "o", "a.mkv"]), 0, "wrote o: 2 blocks\n")
    last = tried.read("o")
    ends(slow)
    yield from same("the last output", tried.read("o"), last)


def until(is_so, seconds=20):
    ended = time.monotonic() + seconds
    while not is_so() and time.monotonic() < ended:
        time.sleep(0.01)


# ---- a film that is replaced or locked

def film_swapped(tried):
    """Another film gets the name while an edit reads: nothing is written, to neither of the two."""
    for words in (tried.edit, ["reindex", "film.mkv"]):
        lay(tried.folder, Job(words, {"film.mkv": tried.film, "other.mkv": tried.other}, (), {"kept": "film.mkv"}))
        edit = tried.start(words, "fsync:delay_enter=600000:when=1")
        until(lambda: tried.read(JOURNAL) is not None)
        os.replace(tried.at("other.mkv"), tried.at("film.mkv"))
        yield from wanted(*ends(edit), 4, "fault: disk\n")
        yield from same("the film that was opened", tried.read("kept"), tried.film)
        yield from same("the film that came", tried.read("film.mkv"), tried.other)
        yield from same("the journal", (tried.read(JOURNAL) or b"")[:1] == b"\xa5", False)


def film_swapped_at_recovery(tried):
    half, record = stopped_edit(tried)
    lay(tried.folder, Job([], {"film.mkv": half, JOURNAL: record, "other.mkv": tried.other}, (), {"kept": "film.mkv"}))
    recovery = tried.start(["recover", "film.mkv"], "fsync:delay_enter=600000:when=1")
    time.sleep(0.3)
    os.replace(tried.at("other.mkv"), tried.at("film.mkv"))
    yield from wanted(*ends(recovery), 4, "fault: disk\n")
    yield from same("the film that was opened", tried.read("kept"), half)
    yield from same("the journal", tried.read(JOURNAL), record)


def merge_over_an_edit(tried):
    """An output that is a film in an edit isn't replaced."""
    lay(tried.folder, Job([], {"film.mkv": tried.film, "a.mkv": tried.other}))
    edit = tried.start(tried.edit, "fsync:delay_enter=400000:when=1")
    until(lambda: tried.read(JOURNAL) is not None)
    yield from wanted(tried.run(["merge", "-o", "film.mkv", "a.mkv"]), 4, "fault: files\n")
    yield from wanted(*ends(edit), 0, "edited film.mkv\n")


# ---- folders that take no new file

@contextlib.contextmanager
def mounted(place, *words):
    if not os.path.exists(place):
        os.makedirs(place)
    subprocess.run(["mount", *words, place], check=True)
    try:
        yield place
    finally:
        subprocess.run(["umount", "-l", place], check=False)


MERGE = ["merge", "-o", "out", "a.mkv"]
WROTE = "wrote out: 2 blocks\n"


def kept_over(tried, folder, status, said, prepare=None):
    """An output with two names is replaced in a folder; the other name keeps its bytes."""
    put(os.path.join(folder, "a.mkv"), tried.other)
    put(os.path.join(folder, "out"), OLD)
    os.link(os.path.join(folder, "out"), os.path.join(folder, "kept"))
    if prepare:
        prepare(folder)
    yield from wanted(tried.run(MERGE, cwd=folder), status, said)
    yield from same("the other name", bytes_of(os.path.join(folder, "kept")), OLD)
    if status:
        yield from same("the output", bytes_of(os.path.join(folder, "out")), OLD)


def odd_folders(tried):
    """The path of a folder isn't UTF-8, or a hundred temporary names are in use."""
    fresh(tried.folder)
    odd = os.path.join(os.fsencode(tried.folder), b"caf\xe9")
    os.mkdir(odd)
    yield from kept_over(tried, os.fsdecode(odd), 0, WROTE)
    fresh(tried.folder)

    def use_names(folder):
        for number in range(100):
            put(os.path.join(folder, f".mkvsuite-{number}.new"), b"")

    yield from kept_over(tried, tried.folder, 4, "fault: files\n", use_names)


def deep_folder(tried):
    """A folder has a path that is longer than the system takes at once."""
    fresh(tried.folder)
    here = os.getcwd()
    try:
        os.chdir(tried.folder)
        for _ in range(22):
            os.mkdir("d" * 200)
            os.chdir("d" * 200)
        yield from kept_over(tried, ".", 0, WROTE)
    finally:
        os.chdir(here)


def few_descriptors(tried):
    """With few descriptors an output is written, or nothing is touched."""
    for most in range(3, 12):
        fresh(tried.folder)
        put(tried.at("a.mkv"), tried.other)
        put(tried.at("out"), OLD)
        os.link(tried.at("out"), tried.at("kept"))
        ran = tried.run(MERGE, preexec_fn=lambda: resource.setrlimit(resource.RLIMIT_NOFILE, (most, most)))
        yield from same(f"the other name, with {most} descriptors,", tried.read("kept"), OLD)
        if ran.status and tried.read("out") != OLD:
            yield f"{most} descriptors: the output is touched"


def no_room(tried):
    """No inode is left for a new file: nothing is touched."""
    fresh(tried.folder)
    with mounted(tried.at("m"), "-t", "tmpfs", "-o", "size=1m,nr_inodes=5", "none") as place:
        def fill(folder):
            with contextlib.suppress(OSError):
                for number in range(9):
                    put(os.path.join(folder, f"f{number}"), b"")

        yield from kept_over(tried, place, 4, "fault: files\n", fill)


def mount_point(tried):
    """An output that is a mount point is written in place, by one run at a time."""
    fresh(tried.folder)
    for name, content in (("a.mkv", tried.other), ("film.mkv", tried.film), ("there", OLD), ("out", b"")):
        put(tried.at(name), content)
    with mounted(tried.at("out"), "--bind", tried.at("there")):
        yield from wanted(tried.run(MERGE), 0, WROTE)
        slow = tried.start(["merge", "-o", "out", "film.mkv"], "pwrite64:delay_enter=300000:when=1")
        time.sleep(0.2)
        yield from wanted(tried.run(MERGE), 4, "fault: files\n")
        yield from wanted(tried.run(["propedit", "out", "-e", "track:1", "-s", "name=Hi"]), 4, "fault: disk\n")
        yield from wanted(*ends(slow), 0, WROTE)


def full_disk(tried):
    """An edit appends on a disk with less and less room: a begun edit is made whole when there is room."""
    fresh(tried.folder)
    words = ["propedit", "film.mkv", "-e", "track:1", "-s", "name=" + "N" * 6000]
    lay(tried.folder, Job(words, {"film.mkv": tried.film}))
    tried.run(words)
    new = tried.read("film.mkv")
    with mounted(tried.at("m"), "-t", "tmpfs", "-o", "size=64k", "none") as place:
        for room in range(0, 40):
            for name in os.listdir(place):
                os.remove(os.path.join(place, name))
            put(os.path.join(place, "film.mkv"), tried.film)
            fill(os.path.join(place, "fill"), room * 1024)
            ran = tried.run(words, cwd=place)
            os.remove(os.path.join(place, "fill"))
            tried.run(["recover", "film.mkv"], cwd=place)
            now = bytes_of(os.path.join(place, "film.mkv"))
            if now not in (tried.film, new) or (ran.status == 0) and now != new:
                yield f"{room} KiB: the film is lost"


def fill(path, room):
    """Fills a file system except for `room` bytes."""
    with open(path, "wb", 0) as file:
        with contextlib.suppress(OSError):
            while file.write(b"\1" * 4096):
                pass
        os.ftruncate(file.fileno(), max(0, os.path.getsize(path) - room))


def overlay(tried):
    """On an overlay, an input under another name can't be an output, and an edit follows the film that is copied up."""
    fresh(tried.folder)
    with mounted(tried.at("lower"), "-t", "tmpfs", "none") as lower, mounted(tried.at("top"), "-t", "tmpfs", "none") as top:
        for name in ("upper", "work"):
            os.mkdir(os.path.join(top, name))
        put(os.path.join(lower, "a.mkv"), tried.other)
        put(os.path.join(lower, "film.mkv"), tried.film)
        os.link(os.path.join(lower, "a.mkv"), os.path.join(lower, "b.mkv"))
        with mounted(tried.at("m"), "-t", "overlay", "-o", f"lowerdir={lower},upperdir={top}/upper,workdir={top}/work", "none") as place:
            for name in ("./a.mkv", "b.mkv"):
                yield from wanted(tried.run(["merge", "-o", name, "--title", "x", "a.mkv"], cwd=place), 4, "fault: files\n")
                yield from same("the input", bytes_of(os.path.join(place, "a.mkv")), tried.other)
            yield from wanted(tried.run(tried.edit, cwd=place), 0, "edited film.mkv\n")


# ---- other users

def strangers_journal(tried):
    """A journal that neither the film's owner nor the user owns is refused, and readers report it as any other."""
    for content, said in ((b"", None), (b"\0", None), (tried.record, "error: film.mkv: PendingEdit, run recover\n")):
        for words in (tried.edit, ["recover", "film.mkv"], ["reindex", "film.mkv"]):
            fresh(tried.folder)
            put(tried.at("film.mkv"), tried.film, 0o600)
            put(tried.at(JOURNAL), content, 0o666, STRANGER)
            yield from wanted(tried.run(words), 4, "fault: disk\n")
            yield from same("the film", tried.read("film.mkv"), tried.film)
            yield from same("the journal", tried.read(JOURNAL), content)
            if said:
                yield from wanted(tried.run(["info", "film.mkv"]), 2, said)


def owners_journal(tried):
    """Root takes a journal of the film's owner, and a journal that root makes is the owner's."""
    fresh(tried.folder)
    os.chmod(tried.folder, 0o777)
    put(tried.at("film.mkv"), tried.film, 0o644, STRANGER)
    yield from wanted(tried.run(tried.edit), 0, "edited film.mkv\n")
    yield from same("the journal's owner", (os.stat(tried.at(JOURNAL)).st_uid, tried.mode(JOURNAL)), (STRANGER, 0o644))
    put(tried.at("film.mkv"), tried.film, 0o644, STRANGER)
    put(tried.at(JOURNAL), tried.record, 0o600, STRANGER)
    yield from wanted(tried.run(["recover", "film.mkv"]), 0, "recovered film.mkv\n")


def access_list(tried):
    """A film has an access list that gives its group nothing: only its owner may read the record."""
    fresh(tried.folder)
    put(tried.at("film.mkv"), tried.film, 0o600)
    entries = ((1, 6, 2**32 - 1), (2, 6, 1001), (4, 0, 2**32 - 1), (16, 6, 2**32 - 1), (32, 0, 2**32 - 1))
    os.setxattr(tried.at("film.mkv"), "system.posix_acl_access", struct.pack("<I", 2) + b"".join(struct.pack("<HHI", *entry) for entry in entries))
    tried.run(tried.edit, "pwrite64:signal=KILL:when=5")
    yield from same("the mode of a journal with a record", tried.mode(JOURNAL), 0o600)
    yield from wanted(tried.run(["recover", "film.mkv"]), 0, "recovered film.mkv\n")
    yield from same("the mode of one without", tried.mode(JOURNAL), 0o640)


WITH_STRACE = (unsynced_folder, lock_that_fails, run_beside_run, film_swapped, film_swapped_at_recovery, merge_over_an_edit)
OF_ALL = (two_runs, odd_folders, deep_folder, few_descriptors)
OF_ROOT = (no_room, mount_point, full_disk, overlay, strangers_journal, owners_journal, access_list)


def systems(tried):
    """Tries two runs at once, other users, and special folders."""
    for trial in (*WITH_STRACE, *OF_ALL, *(OF_ROOT if os.geteuid() == 0 else ())):
        try:
            yield trial.__name__.replace("_", " "), list(trial(tried))
        except (OSError, subprocess.SubprocessError) as error:
            yield trial.__name__.replace("_", " "), [f"can't be tried: {error}"]
