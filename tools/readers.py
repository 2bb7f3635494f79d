"""The content of a file as other programs read it."""
import json
import os
import subprocess
import xml.etree.ElementTree


def said(words):
    """Runs a program, and returns its output and its status."""
    run = subprocess.run(words, capture_output=True)
    return run.stdout.decode(errors="replace") + run.stderr.decode(errors="replace"), run.returncode


def streams(path):
    """Returns the packets of each stream that has some, in order, by the stream's number."""
    run = subprocess.run(["ffprobe", "-v", "quiet", "-show_packets", "-show_data_hash", "md5", "-of", "json", path], capture_output=True)
    found = {}
    for packet in json.loads(run.stdout or "{}").get("packets", []):
        seen = tuple(packet.get(key) for key in ("pts_time", "duration_time", "size", "flags", "data_hash"))
        found.setdefault(packet["stream_index"], []).append(seen)
    return found


def warnings(path):
    """Returns the warnings and errors of other readers for an output."""
    found = json.loads(subprocess.run(["mkvmerge", "-J", path], capture_output=True).stdout)
    against = found.get("warnings", []) + found.get("errors", [])
    for program in (["mkvinfo", path], ["ffprobe", "-v", "warning", path]):
        text, status = said(program)
        against += [line for line in text.splitlines() if "arning" in line or "rror" in line or "nvalid" in line]
        against += [f"{program[0]}: status {status}"] if status else []
    return against


def octets(path):
    with open(path, "rb") as file:
        return file.read()


def without_identifiers(element):
    """Returns an Element of XML as text, without identifiers and the space around its texts."""
    inner = "".join(without_identifiers(child) for child in element if not child.tag.endswith("UID"))
    return f"<{element.tag}>{(element.text or '').strip()}{inner}"


def extracted(path, mode):
    """Returns the editions or the Tags that mkvextract finds."""
    text = subprocess.run(["mkvextract", path, mode, "-"], capture_output=True).stdout
    return [without_identifiers(child) for child in xml.etree.ElementTree.fromstring(text)] if b"<" in text else []


def attached(path, folder):
    """Returns the attached files that mkvextract finds."""
    found = []
    for each in json.loads(subprocess.run(["mkvmerge", "-J", path], capture_output=True).stdout)["attachments"]:
        out = os.path.join(folder, "attached")
        subprocess.run(["mkvextract", "-q", path, "attachments", f"{each['id']}:{out}"], capture_output=True)
        found.append((each["file_name"], each["content_type"], each["description"], octets(out)))
    return found
