"""Files of many blocks, for timing: their Elements, and whole files that repeat a Cluster."""

EBML = bytes.fromhex("1A45DFA3 8B 4282 88") + b"matroska"
INFO = bytes.fromhex("1549A966 93 2AD7B1 83 0F4240 4D80 84 6E6F6E65 5741 82 6E6F")
AUDIO = bytes.fromhex("E1 8D B5 88 40E7700000000000 9F 81 02")
ENTRY = bytes.fromhex("D78101 73C58105 838102 8685") + b"A_AC3" + AUDIO
# the same number of bytes, of a codec whose frames mkvmerge takes unchanged
VP8_ENTRY = bytes.fromhex("D78101 73C58105 838101 8685") + b"V_VP8" + bytes.fromhex("E0 8D B0 82 0010 BA 82 0010 EC 83 000000")
AVC_CONFIG = bytes.fromhex("0142001EFFE1000267420100 0268CE")
FILM_ENTRY = bytes.fromhex("D78101 73C58105 838101 868F") + b"V_MPEG4/ISO/AVC" + bytes.fromhex("63A28F") + AVC_CONFIG
UNKNOWN = (1 << 56) - 1


def head(entry):
    """Returns Info, and Tracks of one track."""
    return INFO + bytes.fromhex("1654AE6B") + bytes([0x82 + len(entry), 0xAE, 0x80 + len(entry)]) + entry


def header(element_id, size):
    """Returns an Element's header, with its size in eight bytes."""
    return bytes.fromhex(element_id) + (1 << 56 | size).to_bytes(8, "big")


def element(element_id, body):
    """Returns an Element, with its size in eight bytes."""
    return header(element_id, len(body)) + body


def short(element_id, body):
    """Returns an Element, with its size in as few bytes as a muxer writes."""
    size = len(body)
    width = 1 if size < 0x7F else 2 if size < 0x3FFF else 3
    return bytes.fromhex(element_id) + (1 << (7 * width) | size).to_bytes(width, "big") + body


def block(k, frame, track=1, flags=0x80):
    """Returns a SimpleBlock, k ticks after its Cluster; without other flags, it is a keyframe."""
    return short("A3", bytes([0x80 | track]) + k.to_bytes(2, "big") + bytes([flags]) + frame)


def group(k, frame):
    """Returns a BlockGroup with a duration and a reference to the previous block."""
    inner = short("A1", b"\x81" + k.to_bytes(2, "big") + b"\x00" + frame)
    return short("A0", inner + bytes.fromhex("9B81 14 FB81 EC"))


def units(frame, *sizes):
    """Returns a frame cut into units, each after its length; the last unit has the rest."""
    cut = [frame[sum(sizes[:k]):sum(sizes[:k]) + size] for k, size in enumerate(sizes)] + [frame[sum(sizes):]]
    return b"".join(len(unit).to_bytes(4, "big") + unit for unit in cut)


def write(path, clusters, blocks, ticks, live=False, entry=ENTRY):
    """Writes a file with `clusters` Clusters of `ticks` ticks with the same blocks; a live file has unknown sizes."""
    cluster_size = len(element("E7", bytes(8))) + len(blocks)
    front = header("1F43B675", UNKNOWN if live else cluster_size)
    segment_size = UNKNOWN if live else len(head(entry)) + clusters * (len(front) + cluster_size)
    with open(path, "wb") as file:
        file.write(EBML + header("18538067", segment_size) + head(entry))
        for n in range(clusters):
            file.write(front + element("E7", (n * ticks).to_bytes(8, "big")) + blocks)


def thousand(make):
    """Returns a thousand blocks of 40 bytes, one a tick."""
    return b"".join(make(k, bytes(40)) for k in range(1000))
