"""The figures of tools/bench as text: a table for the terminal, and the rows of the tables of docs/PERFORMANCE.md."""
import statistics

HEADS = ("least s", "median s", "x cp", "cpu s", "MiB", "calls", "MB read", "written")
FILM = ("what", "s", "x cp", "mkvtoolnix", "ffmpeg", "cold", "MiB", "calls", "MB")
SMALL = ("what", "s", "mkvtoolnix", "ffmpeg", "MiB", "calls")
# a row of the same kind is on the page already
NOT_ON_PAGE = ("merge, only Opus", "extract Opus, raw", "extract subtitles, raw", "merge, 500,000 blocks")


def compared(row, rows):
    """Returns the minimum wall time as a ratio to the time of `cp` for the same bytes."""
    copies = [min(it["wall"]) for it in rows if it["who"] == "cp" and it["of"] == row["of"] and it["cold"] == row["cold"]]
    return min(row["wall"]) / copies[0] if copies else None


def cell(value, form):
    return "-" if value is None else format(value, form)


def taken(row):
    """Returns memory, calls, and bytes read and written, if they were measured."""
    part = lambda key, divisor, form: cell(row[key] / divisor if row.get(key) is not None else None, form)
    return [part("memory", 1024, ".1f"), cell(row.get("count"), ","), part("read", 1e6, ".1f"), part("written", 1e6, ".1f")]


# ---- for the terminal

def line(row, rows):
    names = f"{row['what'] + (', cold' if row['cold'] else ''):<30} {row['who']:<11}"
    if not row["good"]:
        return f"{names} failed"
    wall = (min(row["wall"]), statistics.median(row["wall"]))
    cells = [*(f"{it:.4f}" for it in wall), cell(compared(row, rows), ".2f"), f"{min(row['processor']):.4f}", *taken(row)]
    return names + "".join(f"{it:>10}" for it in cells)


def plain(found):
    """Yields a line of each program and work, after the description of the machine."""
    rows = found["rows"]
    yield ", ".join(f"{key} {value}" for key, value in found["machine"].items())
    yield f"a film of {found['film'] / 1e6:.1f} MB; at most {max(len(it['wall']) for it in rows)} rounds"
    yield " " * 42 + "".join(f"{it:>10}" for it in HEADS)
    yield from (line(it, rows) for it in rows)
    cold = [it for it in rows if it["cold"] and it["who"] == "cp"]
    if cold and min(cold[0]["from_disk"]) < found["film"] / 2:
        yield "the film didn't come from the disk: the system doesn't give it up, and nothing above is cold"


# ---- for the page

def of_work(what, rows):
    """Returns the rows of one work: ours or else `cp`, mkvtoolnix's, ffmpeg's, and ours from the disk."""
    those = [it for it in rows if it["what"] == what and it["good"]]
    first = lambda *names, cold=False: next((it for it in those if it["who"] in names and it["cold"] == cold), None)
    toolnix = [it["who"] for it in those if it["who"].startswith("mkv") and it["who"] != "mkvsuite"]
    return first("mkvsuite") or first("cp"), first(*toolnix), first("ffmpeg"), first("mkvsuite", cold=True) or first("cp", cold=True)


def row_of_film(what, rows):
    """Returns wall time, ratios to `cp`, memory, calls, and MB that were read."""
    ours, *others = of_work(what, rows)
    ratio = lambda it: cell(it and compared(it, rows), ".2f")
    read = cell(ours["read"] / 1e6 if ours.get("read") is not None else None, ".0f")
    return [what, f"{min(ours['wall']):.3f}", *map(ratio, (ours, *others)), *taken(ours)[:2], read]


def row_of_small(what, rows):
    """Returns the processor time of each program, memory, and calls."""
    ours, toolnix, ffmpeg, _ = of_work(what, rows)
    processor = (cell(it and min(it["processor"]), ".3f") for it in (ours, toolnix, ffmpeg))
    return [what, *processor, *taken(ours)[:2]]


def table(heads, works, row, rows):
    yield f"| {' | '.join(heads)} |"
    yield "|---" * len(heads) + "|"
    yield from (f"| {' | '.join(row(what, rows))} |" for what in works)


def printed(name, lines):
    yield f"<!-- {name}: printed by tools/bench --page -->"
    yield from lines
    yield f"<!-- {name}: end -->"


def page(found):
    """Yields the two tables of docs/PERFORMANCE.md, each between the comments that mark it as printed."""
    rows = found["rows"]
    works = dict.fromkeys(it["what"] for it in rows if it["good"] and it["who"] in ("mkvsuite", "cp") and it["what"] not in NOT_ON_PAGE)
    films = {it["what"] for it in rows if it["of"] == "film"}
    yield from printed("film", table(FILM, [it for it in works if it in films], row_of_film, rows))
    yield ""
    yield from printed("small blocks", table(SMALL, [it for it in works if it not in films], row_of_small, rows))
