"""A film of 60 MB a minute, for timing: video of 40 KB a frame, two laced tracks of sound, and subtitles in BlockGroups.

If ffmpeg and mkvmerge are installed, they encode it: H.264 with B-frames, AC-3 and Opus, with SubRip and chapters. One minute is
encoded, and repeated. Otherwise this module makes it, in the same shape, of random bytes."""
import os
import random
import shutil
import struct
import subprocess
import tempfile

import blocks

STEP = 3000
RATE = 25
AC3 = "anoisesrc=d=60:c=pink:r=48000:a=0.3"
OPUS = "sine=frequency=440:duration=60:sample_rate=48000"
PICTURE = "testsrc2=size=640x360:rate=25:duration=60"
# all noise, so that the rate is reached
H264 = ["-vf", "noise=alls=60:allf=t", "-c:v", "libx264", "-preset", "ultrafast", "-bf", "2", "-x264-params", "b-adapt=0:keyint=50",
        "-b:v", "8M", "-minrate", "8M", "-bufsize", "8M"]
ENCODED = (("v.mp4", PICTURE, H264), ("a.mka", AC3, ["-ac", "2", "-c:a", "ac3", "-b:a", "384k"]),
           ("b.mka", OPUS, ["-c:a", "libopus", "-b:a", "96k"]))


def write(path, minutes):
    """Writes a film of `minutes` minutes."""
    if shutil.which("ffmpeg") and shutil.which("mkvmerge"):
        with tempfile.TemporaryDirectory(dir=os.path.dirname(path)) as room:
            encode(path, minutes, room)
    else:
        make(path, minutes)


# ---- by ffmpeg and mkvmerge

def ffmpeg(*words):
    subprocess.run(["ffmpeg", "-nostdin", "-loglevel", "error", "-y", *words], check=True)


def repeated(room, name, times):
    """Returns a Matroska file that repeats an encoded one `times` times."""
    with open(f"{room}/{name}.txt", "w", encoding="ascii") as file:
        file.write(f"file '{room}/{name}'\n" * times)
    ffmpeg("-f", "concat", "-safe", "0", "-i", f"{room}/{name}.txt", "-c", "copy", f"{room}/{name}.mkv")
    return f"{room}/{name}.mkv"


def clock(ms, point):
    return f"{ms // 3600000:02}:{ms // 60000 % 60:02}:{ms // 1000 % 60:02}{point}{ms % 1000:03}"


def encode(path, minutes, room):
    for name, source, codec in ENCODED:
        ffmpeg("-f", "lavfi", "-i", source, *codec, f"{room}/{name}")
    video, sound, other = (repeated(room, name, minutes) for name, _, _ in ENCODED)
    with open(f"{room}/s.srt", "w", encoding="ascii") as file:
        for k in range(20 * minutes):
            file.write(f"{k + 1}\n{clock(STEP * k + 500, ',')} --> {clock(STEP * k + 2800, ',')}\nLine {k} of the subtitles\n\n")
    with open(f"{room}/c.txt", "w", encoding="ascii") as file:
        for k in range(1, minutes + 1):
            file.write(f"CHAPTER{k:02}={clock(60000 * (k - 1), '.')}\nCHAPTER{k:02}NAME=Chapter {k}\n")
    words = ["--title", "A film", "--chapters", f"{room}/c.txt", video, sound, "--default-track-flag", "0:0", other, f"{room}/s.srt"]
    # status 1 is a warning
    if subprocess.run(["mkvmerge", "-q", "-o", path, *words], stdout=subprocess.DEVNULL).returncode > 1:
        raise OSError("mkvmerge makes no film")


# ---- without other programs

def number(element_id, value):
    return blocks.short(element_id, value.to_bytes(max(1, (value.bit_length() + 7) // 8), "big"))


def track(place, kind, codec, *more):
    entry = number("D7", place) + number("73C5", 100 + place) + number("83", kind) + blocks.short("86", codec.encode())
    return blocks.short("AE", entry + b"".join(more))


def sound(rate, channels):
    return blocks.short("E1", blocks.short("B5", struct.pack(">d", rate)) + number("9F", channels))


def front():
    """Returns Info, Tracks, and a Void, as muxers leave one for edits."""
    info = number("2AD7B1", 1000000) + blocks.short("4D80", b"bench") + blocks.short("5741", b"bench")
    picture = blocks.short("63A2", blocks.AVC_CONFIG) + blocks.short("E0", number("B0", 1920) + number("BA", 1080))
    tracks = (track(1, 1, "V_MPEG4/ISO/AVC", picture), track(2, 2, "A_AC3", number("23E383", 32000000), sound(48000, 6)),
              track(3, 2, "A_OPUS", number("23E383", 20000000), sound(48000, 2)), track(4, 17, "S_TEXT/UTF8"))
    return blocks.element("1549A966", info) + blocks.element("1654AE6B", b"".join(tracks)) + blocks.element("EC", bytes(4096))


class Octets:
    """Random bytes, the same each time."""

    def __init__(self):
        self.chance = random.Random(1)
        self.pool = self.chance.randbytes(1 << 20)

    def sizes(self, count, least, most):
        return [self.chance.randrange(least, most) for _ in range(count)]

    def take(self, size):
        at = self.chance.randrange(len(self.pool) - size)
        return self.pool[at:at + size]


def cluster(octets):
    """Yields the blocks of three seconds, each with its time. Video frames have three units; AC-3 has laces of one size, Opus Xiph
    laces."""
    for k, size in enumerate(octets.sizes(STEP * RATE // 1000, 27000, 53000)):
        yield k * 1000 // RATE, blocks.block(k * 1000 // RATE, blocks.units(octets.take(size), 2, 700), 1, 0 if k else 0x80)
    for at in range(0, STEP, 256):
        yield at, blocks.block(at, b"\7" + octets.take(8 * 1536), 2, 0x84)
    for at in range(0, STEP, 160):
        sizes = octets.sizes(8, 240, 254)
        yield at, blocks.block(at, bytes([7, *sizes[:7]]) + octets.take(sum(sizes)), 3, 0x82)
    line = blocks.short("A1", b"\x84" + (500).to_bytes(2, "big") + b"\0A line of the subtitles")
    yield 500, blocks.short("A0", line + number("9B", 2300))


def make(path, minutes):
    octets = Octets()
    with open(path, "wb") as file:
        file.write(blocks.EBML + blocks.header("18538067", 0))
        begin = file.tell()
        file.write(front())
        for n in range(minutes * 60000 // STEP):
            those = sorted(cluster(octets), key=lambda it: it[0])
            file.write(blocks.element("1F43B675", number("E7", n * STEP) + b"".join(it for _, it in those)))
        size = file.tell() - begin
        file.seek(begin - 8)
        file.write((1 << 56 | size).to_bytes(8, "big"))
