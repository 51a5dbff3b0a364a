"""What `rvas check` says of texts, in the form of the diagnostics of the language server, and how the two differ.

Documents are changed here by the words of the protocol.
"""
import collections
import os
import re
import subprocess

MAX_LINES = 16384
MAX_LINE_LENGTH = 1000
MAX_SHOWN = 1000


class Wrong(Exception):
    """A diagnostic that none can be."""


def width(character, encoding):
    """How many columns a character has."""
    return len(character.encode()) if encoding == "utf-8" else len(character.encode("utf-16-le")) // 2


def body_of(line):
    """A line without the 0x0D of its end."""
    return line[:-1] if line.endswith("\r") else line


def place_of(text, position, encoding):
    """The index in a text at which a position is."""
    lines = text.split("\n")
    if position["line"] >= len(lines):
        return len(text)
    at = sum(len(line) + 1 for line in lines[: position["line"]])
    column = 0
    for character in body_of(lines[position["line"]]):
        column += width(character, encoding)
        if column > position["character"]:
            break
        at += 1
    return at


def position_of(text, at, encoding):
    """The position of an index in a text."""
    before = text[:at]
    start = before.rfind("\n") + 1
    return {"line": before.count("\n"), "character": sum(width(c, encoding) for c in text[start:at])}


def text_after(text, change, encoding):
    if "range" not in change:
        return change["text"]
    start = place_of(text, change["range"]["start"], encoding)
    end = max(start, place_of(text, change["range"]["end"], encoding))
    return text[:start] + change["text"] + text[end:]


def line_widths(line):
    """At which column of a report each byte of a line is shown, and the end."""
    at, columns = 0, []
    for character in line.decode(errors="surrogateescape"):
        size = len(character.encode(errors="surrogateescape"))
        code = ord(character)
        hidden = code < 0x20 or 0x7F <= code <= 0x9F or code in (0x61C, 0x200E, 0x200F) or 0x202A <= code <= 0x202E or 0x2066 <= code <= 0x2069
        if character == "\t":
            columns.append(at)
            at = at // 8 * 8 + 8
        elif hidden:
            columns += range(at, at + size)
            at += size
        else:
            columns += [at] + [at + 1] * (size - 1)
            at += 1
    return columns + [at]


def byte_columns(line, encoding):
    """The column of each byte of a line, and of the end: a byte within a character counts as what stands behind it."""
    columns = []
    at = 0
    for character in line.decode():
        size = len(character.encode())
        columns.append(at)
        if encoding == "utf-8":
            columns += range(at + 1, at + size)
        else:
            columns += [at + width(character, encoding)] * (size - 1)
        at += width(character, encoding)
    return columns + [at]


def diagnostic(line, start, mark, severity, code, message, related):
    return (line, start, mark, severity, code, message, related)


REPORT = re.compile(rb"(.*):(\d+):(\d+): (error|warning): (.*) \[([A-Za-z-]+)\]")
FIRST = re.compile(rb"(.*):(\d+): note: the first definition is here")
ODD = re.compile(rb".*: note: and (\d+) more instructions? after it, for the same reason")
FAULTY = re.compile(r"the \.equ of .* has a fault \(line (\d+)\)")


def assembled(text):
    """The lines that are assembled: of one that is too long nothing."""
    lines = text.encode().split(b"\n")[:MAX_LINES]
    return [line if len(line) <= MAX_LINE_LENGTH else b"" for line in lines]


def reports_of(rvas, folder, texts, encoding, base=0):
    """What `rvas check` says of each text at a base, as diagnostics, and how many instructions at odd addresses it does not show."""
    names = []
    for number, text in enumerate(texts):
        names.append(os.path.join(folder, f"{number}.s"))
        with open(names[-1], "wb") as file:
            file.write(b"\n".join(assembled(text)))
    said = subprocess.run(rvas + ["check", "--all", "--no-line-marks", f"--base={base}"] + names, capture_output=True, check=False).stderr.split(b"\n")
    found = [[] for _ in texts]
    hidden = [0] * len(texts)
    lines = [assembled(text) for text in texts]
    number, k = 0, 0
    while k < len(said):
        row = REPORT.fullmatch(said[k])
        if row:
            number = int(os.path.basename(row[1])[:-2])
            line, at = int(row[2]) - 1, int(row[3]) - 1
            mark = len(said[k + 2].split(b"|", 1)[1].strip())
            if lines[number][line].endswith(b"\r"):
                # The mark covers the 0x0D as well, behind which no column is.
                shown = line_widths(lines[number][line])
                mark = max(1, min(mark, shown[-2] - shown[at]))
            message, code = row[5].decode(), row[6].decode()
            start = byte_columns(lines[number][line], encoding)[at]
            faulty = FAULTY.fullmatch(message)
            found[number].append(diagnostic(line, start, mark, 1 if row[4] == b"error" else 2, code, message, int(faulty[1]) - 1 if faulty else None))
            k += 3
            continue
        note = FIRST.fullmatch(said[k])
        if note:
            # An editor shows one row, so that the message says what the note does.
            *place, message, _ = found[number][-1]
            found[number][-1] = (*place, f"{message} in line {int(note[2])}", int(note[2]) - 1)
        more = ODD.fullmatch(said[k])
        if more:
            hidden[number] += int(more[1])
        k += 1
    for number, text in enumerate(texts):
        all_lines = text.encode().split(b"\n")
        for line, content in enumerate(all_lines[:MAX_LINES]):
            if len(content) > MAX_LINE_LENGTH:
                found[number].append(diagnostic(line, None, None, 1, "line-too-long", "a line has at most 1000 bytes", None))
        if len(all_lines) > MAX_LINES + 1 or len(all_lines) == MAX_LINES + 1 and all_lines[-1]:
            found[number].append(diagnostic(MAX_LINES, None, None, 1, "too-many-lines", "a text has at most 16384 lines", None))
    return found, hidden


def published_of(params, text, encoding):
    """Diagnostics of a message, in the form of those of `rvas check`."""
    lines = assembled(text)
    found = []
    for item in params["diagnostics"]:
        line, code = item["range"]["start"]["line"], item["code"]
        start = mark = None
        if code not in ("line-too-long", "too-many-lines", "more"):
            start = item["range"]["start"]["character"]
            columns, shown = byte_columns(lines[line], encoding), line_widths(lines[line])
            if start not in columns or item["range"]["end"]["character"] not in columns:
                raise Wrong(f"a column that is none: {item}")
            end = columns.index(item["range"]["end"]["character"])
            mark = max(1, shown[end] - shown[columns.index(start)])
        places = item.get("relatedInformation", [])
        related = places[0]["location"]["range"]["start"]["line"] if places else None
        found.append(diagnostic(line, start, mark, item["severity"], code, item["message"], related))
    return found


def difference(published, reported, hidden):
    """What differs, or nothing. All instructions at odd addresses are published, and only the first of some reported. That a text has too many lines
    is published beside as many others as are shown at most."""
    more = [item for item in published if item[4] == "more"]
    published = collections.Counter(item for item in published if item[4] != "more")
    reported = collections.Counter(reported)
    shown = sum(count for item, count in published.items() if item[4] != "too-many-lines")
    lost, added = reported - published, published - reported
    if more:
        count = int(more[0][5].split()[0])
        has_faults = any(item[3] == 1 for item in lost) or hidden > sum(added.values())
        left = sum(reported.values()) + hidden - sum(published.values())
        right = len(more) == 1 and shown == MAX_SHOWN and count == left > 0 and more[0][3] == (1 if has_faults else 2)
        return None if right and all(item[4] in ("OddAddress", "too-many-lines") for item in added) else (more, lost, added)
    if any(item[4] != "OddAddress" for item in added) or sum(added.values()) != hidden or lost:
        return (lost, added, hidden)
    return None


def listed_hints(rvas, folder, text, encoding, base):
    """The end, the address and the first bytes of each line as `rvas list` has them at a base: no bytes of a line in .bss, or without any."""
    name = os.path.join(folder, "listed.s")
    lines = assembled(text)
    with open(name, "wb") as file:
        file.write(b"\n".join(lines))
    rows = subprocess.run(rvas + ["list", "--no-line-marks", f"--base={base}", name], capture_output=True, check=False).stdout.split(b"\n")[1:]
    listed = []
    for line, row in zip(lines, rows):
        digits = row[15:31].strip().decode()
        pairs = [digits[k : k + 2] for k in range(0, len(digits), 2)]
        more = ["..."] if row[31:32] == b"+" else []
        end = byte_columns(body_of(line.decode()).encode(), encoding)[-1]
        listed.append((end, row[6:14].decode(), " ".join(pairs + more)))
    return listed


def hints_within(listed, place):
    """Those of the lines of a range, and of other lines nothing. A range that ends at the beginning of a line is without that line."""
    lines = range(place["start"]["line"], place["end"]["line"] + (place["end"]["character"] > 0))
    return [row if number in lines else (0, "", "") for number, row in enumerate(listed)]


def hint_difference(hints, listed):
    """The first line whose hint is not what is listed, or nothing."""
    found = {hint["position"]["line"]: (hint["position"]["character"], *hint["label"].partition(" ")[::2]) for hint in hints}
    for number, line in enumerate(listed):
        hint = found.pop(number, None)
        if hint != line and (line[2] or hint):
            return (number, hint, line)
    return found or None
