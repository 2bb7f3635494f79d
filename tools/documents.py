"""Random Matroska documents (RFC 8794 and RFC 9559) with much that is allowed but odd. Numbers and sizes have more bytes than they need.
Identifiers are missing, 0 or given twice, and targets name nothing. There are unknown Elements, Voids, texts with zero bytes, and wrong
CRC-32 values. A few documents are damaged."""
import typing

from generated import number

TYPES = (1, 1, 1, 2, 2, 2, 17, 17)
OTHER_TYPES = (3, 16, 18, 32)
CODECS = {1: ("V_VP8", "V_MPEG4/ISO/AVC", "V_UNCOMPRESSED"), 2: ("A_OPUS", "A_AC3", "A_VORBIS"), 17: ("S_TEXT/UTF8", "S_VOBSUB")}
SCALES = (1000000, 1000000, 1000000, 1000000, 100000, 999, 33333333, 1000000000)
# IDs of Elements that the standards don't have, or that this program doesn't know
UNKNOWN = ("8F", "4FA5", "2F00A5", "1FA5A5A5", "55B0", "536F")
LETTERS = "abcXYZ 019-é漢😀\n"
# by the kind of what they name: the ID of the identifier, and the ID of a Tag's target
IDENTIFIERS = {"track": ("73C5", "63C5"), "edition": ("45BC", "63C9"), "chapter": ("73C4", "63C4"), "file": ("46AE", "63C6")}


class Kind(typing.NamedTuple):
    """Properties that two tracks must share to be appended."""
    type: int
    codec: str
    private: bytes | None
    inner: bytes


class Maker:
    """Makes the Elements of one document at random."""

    def __init__(self, chance):
        self.chance = chance
        self.named = {kind: [] for kind in IDENTIFIERS}
        # largest depth of nested chapters
        self.deepest = chance.choice((2, 5, 5, 28))

    def some(self, share):
        return self.chance.random() < share

    def few(self, least, most):
        return range(self.chance.randint(least, most))

    # ---- Elements

    def element(self, element_id, *parts):
        body = b"".join(parts)
        width = next(width for width in range(1, 9) if len(body) < (1 << 7 * width) - 1)
        if self.some(0.1):
            width = self.chance.randint(width, 8)
        return bytes.fromhex(element_id) + (1 << 7 * width | len(body)).to_bytes(width, "big") + body

    def master(self, element_id, *parts):
        """Returns a master with these children, often with one more, or in another order."""
        children = list(parts)
        if self.some(0.06) and children:
            children.append(self.chance.choice(children))
        if self.some(0.1):
            children.insert(self.chance.randint(0, len(children)), self.void())
        if self.some(0.08):
            children.insert(self.chance.randint(0, len(children)), self.unknown())
        if self.some(0.1):
            self.chance.shuffle(children)
        if self.some(0.05):
            children.insert(0, self.element("BF", self.chance.randbytes(4)))
        return self.element(element_id, *children)

    def void(self):
        return self.element("EC", bytes(self.chance.choice((0, 1, 5, 130))))

    def unknown(self):
        return self.element(self.chance.choice(UNKNOWN), self.chance.randbytes(self.chance.randint(0, 9)))

    def uint(self, element_id, value):
        octets = b"" if value == 0 and self.some(0.3) else number(value)
        if octets and self.some(0.1):
            octets = octets.rjust(self.chance.randint(len(octets), 8), b"\0")
        return self.element(element_id, octets)

    def int(self, element_id, value):
        least = next(width for width in range(1, 9) if -(1 << 8 * width - 1) <= value < 1 << 8 * width - 1)
        width = self.chance.randint(least, 8) if self.some(0.1) else least
        return self.element(element_id, value.to_bytes(width, "big", signed=True))

    def text(self):
        text = "".join(self.chance.choices(LETTERS, k=self.chance.choice((0, 1, 3, 8, 20, 400)))).encode()
        return text + b"\0" + self.chance.randbytes(self.chance.randint(0, 3)) if self.some(0.1) else text

    def maybe(self, share, element_id, make):
        """Returns an Element of a text or a number, or nothing."""
        if not self.some(share):
            return b""
        value = make()
        return self.uint(element_id, value) if isinstance(value, int) else self.element(element_id, value)

    # ---- identifiers

    def identifier(self, kind):
        """Returns the identifier of a track, an edition, a chapter or a file, or nothing."""
        if self.some(0.12):
            return b""
        value = self.chance.choice((0, self.chance.randint(1, 6), self.chance.randint(1, 6), self.chance.getrandbits(64), (1 << 64) - 1))
        if self.named[kind] and self.some(0.1):
            value = self.chance.choice(self.named[kind])
        self.named[kind].append(value)
        return self.uint(IDENTIFIERS[kind][0], value)

    def target(self, kind):
        """Returns a target that names something, everything, or nothing that exists."""
        given = self.named[kind]
        value = self.chance.choice(given) if given and self.some(0.7) else self.chance.choice((0, 3, 77, self.chance.getrandbits(64)))
        return self.uint(IDENTIFIERS[kind][1], value)

    # ---- tracks

    def kind(self):
        """Returns properties that a track may share with another."""
        type_ = self.chance.choice(OTHER_TYPES) if self.some(0.05) else self.chance.choice(TYPES)
        inner = b""
        if type_ == 1 and self.some(0.8):
            inner = self.master("E0", self.uint("B0", self.chance.randint(1, 4000)), self.uint("BA", self.chance.randint(1, 4000)),
                                self.maybe(0.3, "54B0", lambda: 16), self.maybe(0.3, "54BA", lambda: 9))
        if type_ == 2 and self.some(0.8):
            inner = self.master("E1", self.element("B5", bytes.fromhex("40E7700000000000")), self.maybe(0.7, "9F", lambda: self.chance.randint(1, 8)))
        private = self.chance.randbytes(self.chance.choice((0, 4, 60))) if self.some(0.5) else None
        return Kind(type_, self.chance.choice(CODECS.get(type_, ("X_NONE",))), private, inner)

    def stripped(self):
        """Returns ContentEncodings of header stripping."""
        settings = self.element("5034", self.uint("4254", 3), self.element("4255", self.chance.randbytes(self.chance.randint(0, 6))))
        return self.element("6D80", self.element("6240", self.maybe(0.5, "5031", lambda: 0), self.maybe(0.5, "5032", lambda: 1), settings))

    def entry(self, number_, kind):
        parts = [self.uint("D7", number_), self.identifier("track"), self.element("83", bytes([kind.type])), self.element("86", kind.codec.encode())]
        parts += [self.element("63A2", kind.private)] if kind.private is not None else []
        parts += [kind.inner, self.maybe(0.4, "23E383", lambda: self.chance.choice((20000000, 33366667, 1))), self.maybe(0.4, "536E", self.text)]
        parts += [self.maybe(0.4, "22B59C", lambda: self.chance.choice((b"ger", b"und", b"", b"eng\0x"))), self.maybe(0.3, "22B59D", lambda: b"de-AT")]
        parts += [self.maybe(0.2, flag, lambda: self.chance.randint(0, 1)) for flag in ("B9", "88", "55AA", "55AB", "55AF", "9C")]
        parts += [self.maybe(0.1, "23314F", lambda: bytes.fromhex("3F800000")), self.stripped() if self.some(0.15) else b""]
        return self.master("AE", *[part for part in parts if part])

    # ---- blocks

    def frames(self, least, most, same=False):
        sizes = [400000 if self.some(0.003) else self.chance.choice((0, 1, 7, 40, 254, 255, 300)) for _ in self.few(least, most)]
        return [self.chance.randbytes(sizes[0] if same else size) for size in sizes]

    def laced(self):
        """Returns the bytes of a block after its timestamp: flags, the lacing and the frames."""
        flags, lace = self.chance.choice((0x80, 0, 0x01, 0x08, 0x81)), self.chance.choice((0, 0, 0, 1, 2, 3))
        if lace == 0:
            return bytes([flags]) + b"".join(self.frames(1, 1))
        frames = self.frames(1, 6, lace == 2)
        count, sizes = bytes([len(frames) - 1]), [len(frame) for frame in frames]
        if lace == 1:
            told = b"".join(b"\xFF" * (size // 255) + bytes([size % 255]) for size in sizes[:-1])
        elif lace == 3 and len(sizes) > 1:
            steps = [b - a + (1 << 20) - 1 for a, b in zip(sizes, sizes[1:-1])]
            told = b"".join((1 << 21 | size).to_bytes(3, "big") for size in (sizes[0], *steps))
        else:
            told = b""
        return bytes([flags | lace << 1]) + count + told + b"".join(frames)

    def block(self, element_id, tracks):
        track = self.chance.choice(tracks)
        name = bytes([0x80 | track]) if track < 127 else (0x4000 | track).to_bytes(2, "big")
        at = self.chance.choice((0, self.chance.randint(0, 400), self.chance.randint(0, 4000), self.chance.randint(-50, 50)))
        if self.some(0.01):
            at = self.chance.choice((-32768, 32767))
        return self.element(element_id, name, at.to_bytes(2, "big", signed=True), self.laced())

    def group(self, tracks):
        parts = [self.block("A1", tracks), self.maybe(0.6, "9B", lambda: self.chance.choice((0, 20, 33, 1000, 1 << 20)))]
        parts += [self.int("FB", self.chance.choice((-40, 40, 0, -1, 1 << 30))) for _ in self.few(0, 2)]
        parts += [self.maybe(0.1, "A4", lambda: b"state"), self.int("75A2", -6500000) if self.some(0.1) else b""]
        parts += [self.maybe(0.1, "75A1", lambda: self.chance.randbytes(5))]
        return self.master("A0", *[part for part in parts if part])

    def cluster(self, time, tracks):
        inner = [self.group(tracks) if self.some(0.4) else self.block("A3", tracks) for _ in self.few(0, 12)]
        if self.some(0.1):
            inner.insert(self.chance.randint(0, len(inner)), self.chance.choice((self.void, self.unknown))())
        body = self.uint("E7", time) + self.maybe(0.2, "AB", lambda: 99) + b"".join(inner)
        return bytes.fromhex("1F43B675 FF") + body if self.some(0.1) else self.element("1F43B675", body)

    def clusters(self, tracks):
        time, found = self.chance.choice((0, 0, 5, 1 << 33)), []
        for _ in self.few(0, 6):
            found.append(self.cluster(time, tracks))
            time = max(0, time + self.chance.choice((0, 40, self.chance.randint(0, 6000), -self.chance.randint(0, 3000), 70000)))
        return found

    # ---- what describes the file

    def display(self):
        return self.master("80", self.element("85", self.text()), self.maybe(0.6, "437C", lambda: self.chance.choice((b"eng", b"fre", b""))))

    def atom(self, depth):
        start = self.chance.choice((0, self.chance.randint(0, 10 ** 10)))
        parts = [self.identifier("chapter"), self.maybe(0.9, "91", lambda: start), self.maybe(0.5, "92", lambda: start + self.chance.randint(0, 10 ** 9))]
        parts += [self.display() for _ in self.few(0, 2)] + [self.maybe(0.2, "98", lambda: 1), self.maybe(0.1, "5654", self.text)]
        parts += [self.atom(depth + 1) for _ in self.few(0, 2 if depth < 5 else 1) if depth < self.deepest]
        return self.master("B6", *[part for part in parts if part])

    def chapters(self):
        def edition():
            parts = [self.identifier("edition"), self.maybe(0.3, "45DB", lambda: 1), *[self.atom(0) for _ in self.few(0, 3)]]
            return self.master("45B9", *[part for part in parts if part])
        return self.master("1043A770", *[edition() for _ in self.few(0, 3)])

    def simple(self, depth):
        parts = [self.element("45A3", self.text()), self.maybe(0.8, "4487", self.text), self.maybe(0.3, "447A", lambda: b"ger")]
        return self.master("67C8", *[part for part in parts if part], *[self.simple(depth + 1) for _ in self.few(0, 1) if depth < 3])

    def targets(self):
        parts = [self.target(self.chance.choice(list(IDENTIFIERS))) for _ in self.few(0, 3)]
        return self.master("63C0", *([self.uint("68CA", 50)] if self.some(0.5) else []), *parts)

    def tags(self):
        def tag():
            return self.master("7373", *[self.targets() for _ in range(self.chance.choice((0, 1, 1, 1, 2)))], *[self.simple(0) for _ in self.few(0, 2)])
        return self.master("1254C367", *[tag() for _ in self.few(0, 5)])

    def attachments(self):
        def file():
            data = self.chance.randbytes(self.chance.choice((0, 3, 900)))
            parts = [self.element("466E", self.text()), self.element("4660", b"text/plain"), self.element("465C", data)]
            parts += [self.identifier("file"), self.maybe(0.3, "467E", self.text)]
            return self.master("61A7", *[part for part in parts if part])
        return self.element("1941A469", *[file() for _ in self.few(0, 3)])

    def info(self):
        scale = self.chance.choice(SCALES)
        parts = [self.maybe(0.7, "2AD7B1", lambda: scale), self.element("4D80", b"m"), self.element("5741", self.text()), self.maybe(0.5, "7BA9", self.text)]
        parts += [self.maybe(0.3, "4489", lambda: bytes.fromhex("40590000")), self.maybe(0.2, "73A4", lambda: self.chance.randbytes(16))]
        return self.master("1549A966", *[part for part in parts if part])

    # ---- the whole document

    def document(self, kinds):
        """Returns a document with tracks of the kinds `kinds`."""
        numbers = self.chance.sample(range(1, 200), len(kinds)) if self.some(0.4) else range(1, len(kinds) + 1)
        tracks = self.element("1654AE6B", *[self.entry(n, kind) for n, kind in zip(numbers, kinds)])
        others = [make() for share, make in ((0.6, self.chapters), (0.6, self.attachments)) if self.some(share)]
        # the Elements that targets name are made before the targets
        others += [self.tags()] if self.some(0.75) else []
        others += [self.chapters()] if self.some(0.05) else []
        clusters = self.clusters([*numbers, 222] if self.some(0.05) else list(numbers))
        front = [self.info(), tracks] if self.some(0.9) else [tracks, self.info()]
        early = [(self.some(0.5), other) for other in others]
        parts = front + [other for is_early, other in early if is_early] + clusters + [other for is_early, other in early if not is_early]
        if self.some(0.2):
            parts.insert(self.chance.randint(0, len(parts)), self.chance.choice((self.void, self.unknown))())
        header = self.element("1A45DFA3", self.element("4282", b"matroska"), self.uint("4287", 4), self.uint("4285", 2))
        body = b"".join(parts)
        return header + (bytes.fromhex("18538067 01FFFFFFFFFFFFFF") + body if self.some(0.1) else self.element("18538067", body))


def kinds_of(chance):
    """Returns random kinds of a few tracks."""
    maker = Maker(chance)
    return [maker.kind() for _ in maker.few(1, 20 if maker.some(0.03) else 4)]


def document(chance, kinds):
    """Returns a random document with tracks of the kinds `kinds`. A few are cut, or have a changed byte."""
    made = bytearray(Maker(chance).document(kinds))
    damage, at = chance.random(), chance.randrange(len(made))
    if damage < 0.03:
        del made[at:]
    elif damage < 0.06:
        made[at] = chance.randrange(256)
    return bytes(made)


def subtitles(chance):
    """Returns a SubRip text of a few entries."""
    def time(ms):
        return f"{ms // 3600000:02}:{ms // 60000 % 60:02}:{ms // 1000 % 60:02},{ms % 1000:03}"

    entries = []
    for n in range(chance.randint(0, 6)):
        start = chance.randint(0, 9000)
        text = "".join(chance.choices(LETTERS.replace("\n", ""), k=chance.randint(1, 20)))
        entries.append(f"{n + 1}\n{time(start)} --> {time(start + chance.randint(0, 3000))}\n{text}\n\n")
    return "".join(entries).encode()


def simple_chapters(chance):
    """Returns a text of simple chapters, two lines each."""
    def lines(n):
        return f"CHAPTER{n:02}=00:00:{chance.randint(0, 59):02}.{chance.randint(0, 999):03}\nCHAPTER{n:02}NAME=Part {n}\n"

    return "".join(map(lines, range(1, chance.randint(1, 5)))).encode()
