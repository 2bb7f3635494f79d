"""Measures of a run: time, memory, calls of the system, and bytes that are read and written."""
import collections
import os
import re
import shutil
import subprocess
import tempfile
import time
import typing

READING = ("read", "pread64", "readv", "preadv")
WRITING = ("write", "pwrite64", "writev", "pwritev")
# calls that both read and write
COPYING = ("copy_file_range", "sendfile")
# the name and result of a call; a call that another thread's interrupts is counted at its end
ENDED = re.compile(r"^\d* *(?:<\.\.\. )?(\w+)(?:\(| resumed>).*?(?:= (-?\d+)\D*|= \?.*)?$")


class Time(typing.NamedTuple):
    """One run: wall time and processor time in seconds, bytes that came from the disk, and the status."""
    wall: float
    processor: float
    from_disk: int
    status: int


def timed(words):
    """Runs a program, without its output, and returns its times."""
    begun = time.perf_counter()
    ran = subprocess.Popen(words, stdin=subprocess.DEVNULL, stdout=subprocess.DEVNULL, stderr=subprocess.DEVNULL)
    _, status, used = os.wait4(ran.pid, 0)
    wall = time.perf_counter() - begun
    ran.returncode = os.waitstatus_to_exitcode(status)
    return Time(wall, used.ru_utime + used.ru_stime, used.ru_inblock * 512, ran.returncode)


def memory(words):
    """Returns the peak memory in KiB, by GNU time: a process that python forks would count python's memory, too."""
    if not os.path.exists("/usr/bin/time"):
        return None
    run = subprocess.run(["/usr/bin/time", "-q", "-f", "%M", *words], stdout=subprocess.DEVNULL, stderr=subprocess.PIPE, text=True)
    return int(run.stderr.split()[-1])


class Calls(typing.NamedTuple):
    """Number of calls of the system, the most frequent by name, and the bytes that they read and wrote."""
    count: int
    names: list
    read: int
    written: int


def calls(words):
    """Returns the calls of the system in one run, by strace, which slows it much."""
    if not shutil.which("strace"):
        return None
    counts, octets = collections.Counter(), collections.Counter()
    with tempfile.NamedTemporaryFile("r", errors="replace") as trace:
        traced = ["strace", "-f", "-qq", "-s", "0", "-e", "signal=none", "-o", trace.name, *words]
        subprocess.run(traced, stdin=subprocess.DEVNULL, stdout=subprocess.DEVNULL, stderr=subprocess.DEVNULL)
        for line in trace:
            found = ENDED.match(line)
            if found and "<unfinished" not in line:
                counts[found[1]] += 1
                octets[found[1]] += max(int(found[2] or 0), 0)
    taken = (sum(octets[name] for name in (*those, *COPYING)) for those in (READING, WRITING))
    return Calls(counts.total(), counts.most_common(4), *taken)


def give_up(path):
    """Makes the system drop the cached content of a file, so that the next run reads it from the disk."""
    file = os.open(path, os.O_RDONLY)
    try:
        os.fdatasync(file)
        os.posix_fadvise(file, 0, 0, os.POSIX_FADV_DONTNEED)
    finally:
        os.close(file)
