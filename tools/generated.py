"""The files that `generate N PREFIX` must write, made by these rules and compared byte for byte.

- PREFIX-a.mkv has N video frames, 40 ms apart from 0. Every 25th, beginning with the first, is a keyframe with a cue point. Frame i,
  from 0, has 8 + (37i mod 101) bytes that count up from i modulo 256.
- PREFIX-b.mkv has 2N audio blocks, 20 ms apart from 0, all of them keyframes, without cue points. Block i has one frame of 5 bytes; if
  i is a multiple of 3, it is a Xiph lace of 4 and 6 bytes. Its bytes count up from 3i modulo 256.
- PREFIX-m.mkv is the merge of both; PREFIX-s-001.mkv .. are the parts of PREFIX-m.mkv by `--split duration:10s`.

All blocks are SimpleBlocks. The track of PREFIX-a and of PREFIX-b has TrackNumber 1 and TrackUID 1, with CodecID V_TEST or A_TEST. A
tick is a millisecond."""
import os
import subprocess
import tempfile

NUMBERS = (1, 2, 25, 26, 250, 251, 500)
# with this one an unproved program takes minutes
MOST = 100000
HEADER = bytes.fromhex("1A45DFA3A3 42868101 42F78101 42F28104 42F38108 428288") + b"matroska" + bytes.fromhex("42878104 42858102")
INFO = bytes.fromhex("1549A966A1 2AD7B183 0F4240 4D808A") + b"mkvsuite 1" + bytes.fromhex("57418A") + b"mkvsuite 1"
PART = 10000


def number(value):
    """A number in the fewest octets, one at least."""
    return value.to_bytes(max(1, (value.bit_length() + 7) // 8), "big")


def sized(size):
    """An Element's size in the fewest octets."""
    width = next(width for width in range(1, 9) if size < (1 << 7 * width) - 1)
    return (1 << 7 * width | size).to_bytes(width, "big")


def element(element_id, *parts):
    body = b"".join(parts)
    return bytes.fromhex(element_id) + sized(len(body)) + body


def counting(first, count):
    return bytes(n % 256 for n in range(first, first + count))


def pictures(n):
    """Of each its track, its time, whether it is key, the sizes of its frames, and their octets."""
    return [(1, 40 * i, i % 25 == 0, [size], counting(i, size)) for i in range(n) for size in [8 + 37 * i % 101]]


def sounds(n):
    return [(2, 20 * i, True, [5] if i % 3 else [4, 6], counting(3 * i, 5 if i % 3 else 10)) for i in range(2 * n)]


def block(track, time, is_key, sizes, octets):
    """A SimpleBlock so long behind its Cluster."""
    lace = bytes([len(sizes) - 1, *sizes[:-1]]) if len(sizes) > 1 else b""
    flags = 0x80 * is_key | 0x02 * (len(sizes) > 1)
    return element("A3", bytes([0x80 | track]), time.to_bytes(2, "big"), bytes([flags]), lace, octets)


def clusters(kinds, blocks):
    """Of each its body, and the track, the time and the place in it of each block that gets a cue point: a key picture."""
    found = []
    for track, time, is_key, sizes, octets in blocks:
        if not found or time - start > 5000 or len(found[-1][0]) + len(block(track, time - start, is_key, sizes, octets)) > 1 << 20 \
                or count == 65535:
            start, count = time, 0
            found.append((element("E7", number(time)), []))
        body, points = found[-1]
        if is_key and kinds[track - 1] == 1:
            points.append((track, time, len(body)))
        found[-1] = body + block(track, time - start, is_key, sizes, octets), points
        count += 1
    return found


def entry(place, kind):
    codec = b"V_TEST" if kind == 1 else b"A_TEST"
    return element("AE", element("D7", number(place)), element("73C5", number(place)), element("83", number(kind)), element("86", codec))


def whole(kinds, blocks):
    """A file with tracks of these types, and so many octets and Clusters and cue points."""
    tracks = element("1654AE6B", *(entry(place, kind) for place, kind in enumerate(kinds, 1)))
    seeks = [("1549A966", 256), ("1654AE6B", 256 + len(INFO))]
    body, cues = INFO + tracks, b""
    made = clusters(kinds, blocks)
    for octets, points in made:
        for track, time, at in points:
            places = element("B7", element("F7", number(track)), element("F1", number(256 + len(body))), element("F0", number(at)))
            cues += element("BB", element("B3", number(time)), places)
        body += element("1F43B675", octets)
    if cues:
        seeks.append(("1C53BB6B", 256 + len(body)))
        body += element("1C53BB6B", cues)
    head = element("114D9B74", *(element("4DBB", element("53AB", bytes.fromhex(ID)), element("53AC", at.to_bytes(8, "big"))) for ID, at in seeks))
    void = b"\xEC" + (1 << 56 | 256 - len(head) - 9).to_bytes(8, "big") + bytes(256 - len(head) - 9)
    segment = bytes.fromhex("18538067") + (1 << 56 | 256 + len(body)).to_bytes(8, "big")
    return HEADER + segment + head + void + body, len(made), sum(len(points) for _, points in made)


def parts(blocks):
    """The blocks of each part, whose times count from its first one."""
    found = []
    for track, time, is_key, sizes, octets in blocks:
        if not found or track == 1 and is_key and time - start >= PART:
            start = time
            found.append([])
        found[-1].append((track, time - start, is_key, sizes, octets))
    return found


def wanted(n):
    """The files of a number, and its line."""
    video = [(1, *rest) for _, *rest in pictures(n)]
    audio = [(2, *rest) for _, *rest in sounds(n)]
    both = sorted(video + audio, key=lambda block: (block[1], block[0]))
    cut = parts(both)
    octets, many, cues = whole([1, 2], both)
    files = {
        "g-a.mkv": whole([1], video)[0],
        "g-b.mkv": whole([2], [(1, *rest) for _, *rest in audio])[0],
        "g-m.mkv": octets,
        **{f"g-s-{k:03}.mkv": whole([1, 2], blocks)[0] for k, blocks in enumerate(cut, 1)},
    }
    return files, f"generated {n}: {len(both)} blocks, {many} clusters, {cues} cues, {len(cut)} parts\n"


def octets_in(folder):
    found = {}
    for name in os.listdir(folder):
        with open(os.path.join(folder, name), "rb") as file:
            found[name] = file.read()
    return found


def faults(is_unproved, program):
    """What differs of what a program writes."""
    told = []
    for n in [*NUMBERS, *([] if is_unproved else [MOST])]:
        files, line = wanted(n)
        with tempfile.TemporaryDirectory() as folder:
            ran = subprocess.run([program, "generate", str(n), "g"], cwd=folder, capture_output=True, text=True)
            if (ran.returncode, ran.stdout, ran.stderr) != (0, line, ""):
                told.append(f"{n}: {ran}")
            found = octets_in(folder)
            told += [f"{n}: {name} differs" for name in sorted(files.keys() | found.keys()) if files.get(name) != found.get(name)]
            # a merge that is merged again stays the same
            subprocess.run([program, "merge", "-o", "again.mkv", "g-m.mkv"], cwd=folder, capture_output=True)
            if octets_in(folder).get("again.mkv") != files["g-m.mkv"]:
                told.append(f"{n}: again.mkv differs")
    return told
