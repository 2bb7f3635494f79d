"""The behaviour of mkvsuite-progress, tried on a terminal and without one, with the program and with two scripts in its place."""
import os
import runpy
import shutil
import signal
import subprocess
import tempfile

ROOT = os.path.dirname(os.path.dirname(os.path.realpath(__file__)))
SCRIPT = os.path.join(ROOT, "tools/mkvsuite-progress")
# writes half of the size of its input, and then nothing for a while
SLOW = "#!/bin/sh\nexec 8<in 9>out\nhead -c 500000 /dev/zero >&9\nsleep 2\necho done\nexit 3\n"
# never ends by itself
ENDLESS = "#!/bin/sh\necho $$\nexec sleep 60\n"
CLEARED = b"\r\033[K"


def beside(folder, program):
    """Copies the script into a folder, beside a program, which may be the text of a script."""
    os.mkdir(folder)
    if os.path.isfile(program):
        shutil.copy(program, f"{folder}/mkvsuite")
    else:
        with open(f"{folder}/mkvsuite", "w", encoding="ascii") as file:
            file.write(program)
        os.chmod(f"{folder}/mkvsuite", 0o755)
    return shutil.copy(SCRIPT, folder)


def on_terminal(words, cwd, stop=None):
    """Returns a program's output, what it shows on a terminal, and its status. `stop` is called after its first line, which is a
    number."""
    shown, terminal = os.openpty()
    with subprocess.Popen(words, cwd=cwd, stdin=subprocess.DEVNULL, stdout=subprocess.PIPE, stderr=terminal) as ran:
        os.close(terminal)
        said = b""
        if stop:
            said = ran.stdout.readline()
            stop(ran, int(said))
        said += ran.stdout.read()
        status = ran.wait()
    seen = b""
    try:
        while octets := os.read(shown, 65536):
            seen += octets
    except OSError:
        # the other side is closed
        pass
    os.close(shown)
    return said, seen, status


def is_seen():
    """Checks whether the script works on this system."""
    return runpy.run_path(SCRIPT)["is_seen"]()


def is_alive(number):
    try:
        os.kill(number, 0)
    except ProcessLookupError:
        return False
    return True


def faults(program):
    """Returns the differences to the expected behaviour."""
    told = []
    with tempfile.TemporaryDirectory() as room:
        script = beside(f"{room}/program", program)
        film = os.path.join(ROOT, "samples/sound.mkv")
        for words in (["info", film], ["info", "none.mkv"], ["merge"]):
            wanted, found = (subprocess.run([it, *words], cwd=room, capture_output=True) for it in (program, script))
            if (found.returncode, found.stdout, found.stderr) != (wanted.returncode, wanted.stdout, wanted.stderr):
                told.append(f"{words[0]} without a terminal: {found}")
            said, seen, status = on_terminal([script, *words], room)
            if (said, status) != (wanted.stdout, wanted.returncode) or seen and not seen.endswith(CLEARED):
                told.append(f"{words[0]} on a terminal: {said}, {seen}, {status}")

        with open(f"{room}/in", "wb") as file:
            file.truncate(1000000)
        said, seen, status = on_terminal([beside(f"{room}/slow", SLOW), "merge"], room)
        shown = b" % written: 500 kB of 1.0 MB, " in seen and seen.endswith(CLEARED)
        if (said, status) != (b"done\n", 3) or shown != is_seen():
            told.append(f"a slow merge: {said}, {seen}, {status}")

        script = beside(f"{room}/endless", ENDLESS)
        for stop, signalled in ((lambda ran, _: ran.terminate(), signal.SIGTERM), (lambda _, number: os.kill(number, signal.SIGKILL), signal.SIGKILL)):
            said, _, status = on_terminal([script, "merge"], room, stop)
            if status != -signalled or is_alive(int(said)):
                told.append(f"stopped: {said}, {status}")
    return told
