"""The sessions of the pages, run as they are there: README.md, docs/COMMANDS.md and docs/TUTORIAL.md.

A session is the indented lines (by four spaces) below one heading `## ..`. A line that begins with `$ ` is a command, and the lines
below it are its exact output. One shell runs the commands of a session in order, in a fresh folder with the repository's `tools` and
`samples`. `mkvsuite` is the program, and so is `tools/run`. A command ends with status 0, unless a comment after it ends with `status N`. Commands that
prove, build or pack are left out."""
import collections
import os
import re
import shutil
import subprocess
import tempfile

ROOT = os.path.dirname(os.path.dirname(os.path.realpath(__file__)))
PAGES = ("README.md", "docs/COMMANDS.md", "docs/TUTORIAL.md")
LEFT_OUT = re.compile(r"(\.ci/run|tools/(check|build|install|package))\b")
STATUS = re.compile(r"#.*\bstatus (\d+)$")
END = "\x1e"

Command = collections.namedtuple("Command", "line words said")
Session = collections.namedtuple("Session", "place title commands")


def sessions(page):
    """Returns the sessions of a page."""
    found, is_open, blank = [], False, 0
    with open(os.path.join(ROOT, page), encoding="utf-8") as file:
        for number, line in enumerate(file.read().split("\n"), 1):
            if line.startswith("## "):
                found.append(Session(f"{page}:{number}", line[3:], []))
            if line.startswith("    $ "):
                found[-1].commands.append(Command(number, line[6:], []))
                is_open, blank = True, 0
            elif line.startswith("    ") and is_open:
                found[-1].commands[-1].said.extend([""] * blank + [line[4:]])
                blank = 0
            elif line:
                is_open, blank = False, 0
            else:
                blank += 1
    kept = [it._replace(commands=[one for one in it.commands if not LEFT_OUT.match(one.words)]) for it in found]
    return [it for it in kept if it.commands]


def ends(session, program):
    """Runs a session, and returns the output and the status of each command."""
    with tempfile.TemporaryDirectory() as room:
        tools, folder = os.path.join(room, "tools"), os.path.join(room, "folder")
        os.makedirs(tools)
        for name, source in (("mkvsuite", program), ("mkvsuite-progress", os.path.join(ROOT, "tools/mkvsuite-progress"))):
            os.symlink(source, os.path.join(tools, name))
        os.makedirs(os.path.join(folder, "tools"))
        os.symlink(os.path.join(tools, "mkvsuite"), os.path.join(folder, "tools/run"))
        os.symlink(os.path.join(ROOT, "tools/make-samples"), os.path.join(folder, "tools/make-samples"))
        os.symlink(os.path.join(ROOT, "tools/make-samples"), os.path.join(tools, "make-samples"))
        shutil.copytree(os.path.join(ROOT, "samples"), os.path.join(folder, "samples"))
        script = "".join(f"{{ {it.words}\n}} 2>&1; printf '{END}%d{END}' $?\n" for it in session.commands)
        ran = subprocess.run(["sh", "-c", script], cwd=folder, stdin=subprocess.DEVNULL, capture_output=True, text=True, timeout=300,
                             env={**os.environ, "PATH": f"{tools}:{os.environ['PATH']}", "LC_ALL": "C"})
    parts = ran.stdout.split(END)
    return list(zip(parts[::2], parts[1::2])), ran.stderr


def faults(session, program):
    """Returns the differences to the page."""
    came, wrong = ends(session, program)
    told = [wrong] if wrong else []
    for one, end in zip(session.commands, [*came, *[("", "not run")] * len(session.commands)]):
        wanted, status = "\n".join(one.said).rstrip("\n"), STATUS.search(one.words)
        if end[0].rstrip("\n") != wanted:
            told.append(f"line {one.line}: said {end[0]!r}, not {wanted!r}")
        if end[1] != (status[1] if status else "0"):
            told.append(f"line {one.line}: status {end[1]}")
    return told


def all_sessions():
    return [session for page in PAGES for session in sessions(page)]
