"""A drawing, as SVG, of the figures of tools/bench: bars beside those of `cp` and of the peers, and the growth of times."""

WIDTH, LEFT, BAR, GAP, NARROW = 900, 210, 11, 7, 390
COLOURS = {"mkvsuite": "#2f5d8a", "cp": "#999999", "ffmpeg": "#c98a2b"}
OTHER = "#7aa35a"
HEAD = '<svg xmlns="http://www.w3.org/2000/svg" viewBox="0 0 {} {}" font-family="sans-serif" font-size="11">'
STYLE = ("<style>.h{font-size:14px;font-weight:bold}.a{stroke:#bbb;fill:none}.r{text-anchor:end}.m{text-anchor:middle}"
         "polyline{fill:none;stroke-width:2}</style>")


def colour(who):
    return COLOURS.get(who, OTHER)


def text(x, y, words, kind=""):
    words = words.replace("&", "&amp;").replace("<", "&lt;")
    return f'<text x="{x:.1f}" y="{y:.1f}"' + (f' class="{kind}"' if kind else "") + f">{words}</text>"


def rect(x, y, width, height, fill):
    return f'<rect x="{x:.1f}" y="{y:.1f}" width="{width:.1f}" height="{height:.1f}" fill="{fill}"/>'


def legend(rows, y):
    """Draws the programs and their colours; all programs of mkvtoolnix have the same one."""
    names = dict.fromkeys(row["who"] if row["who"] in COLOURS else "mkvtoolnix" for row in rows)
    return [rect(LEFT + 120 * k, y - 9, 10, 10, colour(name)) + text(LEFT + 120 * k + 15, y, name) for k, name in enumerate(names)]


# ---- bars

def by_work(rows):
    """Returns the rows of each work, in order."""
    works = {}
    for row in rows:
        works.setdefault(row["what"], []).append(row)
    return works


def bars(title, rows, value, form, y):
    """Draws a bar for each row, grouped by work. Returns the drawing and its lower end."""
    most = max(map(value, rows))
    drawn = [text(12, y, title, "h")]
    y += 10
    for work, those in by_work(rows).items():
        drawn.append(text(LEFT - 8, y + BAR * len(those) / 2 + 4, work, "r"))
        for row in those:
            length = (WIDTH - LEFT - 70) * value(row) / most
            drawn += [rect(LEFT, y, length, BAR - 1, colour(row["who"])), text(LEFT + length + 5, y + BAR - 2, format(value(row), form))]
            y += BAR
        y += GAP
    return drawn, y + 30


def beside_copy(rows, y):
    """Draws wall times on the film as ratios to the time of `cp`."""
    films = [row for row in rows if row["of"] == "film" and not row["cold"]]
    copy = next(min(row["wall"]) for row in films if row["who"] == "cp")
    return bars("A film: minimum wall time, as a multiple of cp", films, lambda row: min(row["wall"]) / copy, ".2f", y)


def in_memory(rows, y):
    """Draws the peak memory of every command; for small blocks, only at the largest numbers of blocks and of tracks."""
    most = {begin: max((row["number"] for row in rows if begin in row["what"]), default=0) for begin in ("block", "track")}
    known = [row for row in rows if row.get("memory") and row["who"] != "cp" and row["number"] in (0, *most.values())]
    return bars("Peak memory, in MiB", known, lambda row: row["memory"] / 1024, ".1f", y) if known else ([], y)


# ---- growth

def frame(title, below, left, y, points, most):
    """Draws the axes: the numbers below, and the largest number of seconds."""
    drawn = [text(left, y, title, "h"), f'<path class="a" d="M{left} {y + 16}v170h{NARROW}"/>', text(left + 5, y + 26, f"{most:.2f} s")]
    drawn += [text(left + x, y + 200, f"{number:,}", "m") for number, x in points.items()]
    return [*drawn, text(left + NARROW / 2, y + 216, below, "m")]


def growth(title, below, rows, left, y, even):
    """Draws a line for each program: processor seconds over the number of blocks, or of tracks, which have even distances."""
    numbers = sorted({row["number"] for row in rows})
    place = lambda k, number: (k + 1) / len(numbers) if even else number / numbers[-1]
    points = {number: (NARROW - 30) * place(k, number) for k, number in enumerate(numbers)}
    most = max(min(row["processor"]) for row in rows)
    drawn = frame(title, below, left, y, points, most)
    for who in dict.fromkeys(row["who"] for row in rows):
        those = sorted((row["number"], min(row["processor"])) for row in rows if row["who"] == who)
        line = " ".join(f"{left + points[number]:.1f},{y + 186 - 165 * seconds / most:.1f}" for number, seconds in those)
        drawn.append(f'<polyline stroke="{colour(who)}" points="{line}"/>')
    return drawn


def growths(rows, y):
    """Draws growth with the number of small blocks, next to growth with the number of tracks at nearly the same number of
    blocks."""
    drawn = []
    for left, of, even in ((12, "block", False), (480, "track", True)):
        those = [row for row in rows if of in row["what"] and row["number"]]
        drawn += growth(f"Processor time by {of}s", f"{of}s", those, left, y, even) if those else []
    return drawn, y + 240


def drawing(rows):
    """Returns the whole drawing."""
    rows, y = [row for row in rows if row["good"]], 50
    parts = legend(rows, 20)
    for panel in (beside_copy, in_memory, growths):
        more, y = panel(rows, y)
        parts += more
    return "\n".join([HEAD.format(WIDTH, y), STYLE, *parts, "</svg>\n"])
