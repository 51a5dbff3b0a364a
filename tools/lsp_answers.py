"""What answers of the language server have to be, by the words of the protocol: edits of a rename and of quick fixes, tokens, completions, folds, signatures; sections and encodings."""
import os
import re
import subprocess

from lsp_reports import Wrong, assembled, listed_hints, place_of, position_of, reports_of

# The faults of statements, and those that no quick fix is for. (docs/LANGUAGE.md)
OF_STATEMENTS = {"BadByte", "BadNumber", "BadString", "NoStatement", "UnknownName", "OperandCount", "BadRegister", "RegisterRange", "BadOperand", "TooDeep"}
OF_PLACES = {"Duplicate", "OddAddress", "InBss"}

# The types of tokens that a name can have, by their numbers: function, enumMember.
NAME_TYPES = (3, 4)


def span_of(text, place, encoding):
    """Where a range begins and ends in a text, both of which have to be places of one line."""
    start, end = (place_of(text, place[side], encoding) for side in ("start", "end"))
    right = place["start"]["line"] == place["end"]["line"] and start <= end
    if not right or position_of(text, start, encoding) != place["start"] or position_of(text, end, encoding) != place["end"]:
        raise Wrong(f"no range of a line: {place}")
    return start, end


def text_after_edits(text, edits, encoding):
    """A text after edits, all of which count in it, and none of which overlap."""
    spans = sorted((*span_of(text, edit["range"], encoding), edit["newText"]) for edit in edits)
    after, at = "", 0
    for start, end, new in spans:
        if start < at:
            raise Wrong(f"edits overlap: {edits}")
        after += text[at:start] + new
        at = end
    return after + text[at:]


def image_of(rvas, folder, text, base=0):
    """The bytes of a text at a base, also where it has faults."""
    name = os.path.join(folder, "image.s")
    with open(name, "wb") as file:
        file.write(b"\n".join(assembled(text)))
    return subprocess.run(rvas + ["asm", "--force", "-f", "image", "--no-line-marks", f"--base={base}", name], capture_output=True, check=False).stdout


def check_rename(rvas, folder, text, name, result, encoding):
    """A rename changes no byte, and leaves each fault and warning where it was."""
    if list(result["changes"]) != [name]:
        raise Wrong(f"another document: {result}")
    after = text_after_edits(text, result["changes"][name], encoding)
    if image_of(rvas, folder, text) != image_of(rvas, folder, after):
        raise Wrong(f"the image of {after!r} is another one")
    found, _ = reports_of(rvas, folder, [text, after], encoding)
    before, now = ([(item[0], item[3], item[4]) for item in items] for items in found)
    if before != now:
        raise Wrong(f"{now}, not {before}, of {after!r}")


def check_fixes(rvas, folder, text, name, line, actions, encoding, base):
    """Each quick fix is an edit of the line, after which that has no fault of its statement, and not the fault that the fix is for."""
    after = []
    for action in actions:
        if action["kind"] != "quickfix" or list(action["edit"]["changes"]) != [name]:
            raise Wrong(f"no quick fix of this document: {action}")
        (edit,) = action["edit"]["changes"][name]
        if edit["range"]["start"]["line"] != line:
            raise Wrong(f"a quick fix of another line: {action}")
        after.append(text_after_edits(text, [edit], encoding))
    (before, *found), _ = reports_of(rvas, folder, [text, *after], encoding, base)
    for action, items in zip(actions, found):
        left = [item for item in items if item[0] == line and item[3] == 1 and (item[4] in OF_STATEMENTS or item in before and item[4] not in OF_PLACES)]
        if left:
            raise Wrong(f"{action} leaves {left} in {text!r}")


def check_prepared(text, result, encoding):
    """What can be renamed is shown as it is."""
    start, end = span_of(text, result["range"], encoding)
    if text[start:end] != result["placeholder"] or start == end:
        raise Wrong(f"{result} of {text[start:end]!r}")


def token_spans(text, result, encoding):
    """The spans of tokens with their types: they are in order, each in its line, and none overlap."""
    data = result["data"]
    if len(data) % 5:
        raise Wrong(f"{len(data)} numbers")
    spans, line, column, last = {}, 0, 0, 0
    for k in range(0, len(data), 5):
        down, across, length, kind, _ = data[k : k + 5]
        line, column = line + down, across if down else column + across
        place = {"start": {"line": line, "character": column}, "end": {"line": line, "character": column + length}}
        start, end = span_of(text, place, encoding)
        if start < last or start == end:
            raise Wrong(f"a token at {place} behind one that ends at {last}")
        spans[start, end] = kind
        last = end
    return spans


def check_names(text, spans, places, encoding):
    """Each name that references or symbols know is a token."""
    for place in places:
        start, end = span_of(text, place, encoding)
        if spans.get((start, end)) not in NAME_TYPES:
            raise Wrong(f"{text[start:end]!r} at {place} is no token of a name")


def check_completion(rvas, folder, text, position, items, encoding, random):
    """Each item goes on with the word before the position; and a name that is put there is known."""
    at = place_of(text, position, encoding)
    for item in items:
        edit = item["textEdit"]
        start, end = span_of(text, edit["range"], encoding)
        if end != at or edit["newText"] != item["label"] or not item["label"].lower().startswith(text[start:end].lower()):
            raise Wrong(f"{item} at {position}")
    if not items:
        return
    item = random.choice(items)
    start = item["textEdit"]["range"]["start"]
    after = text_after_edits(text, [item["textEdit"]], encoding)
    found, _ = reports_of(rvas, folder, [after], encoding)
    for report in found[0]:
        if report[:2] == (start["line"], start["character"]) and report[4] in ("UnknownName", "Undefined", "RegisterRange") and len(item["label"]) == report[2]:
            raise Wrong(f"{item} at {position}: {report}")


# A line that begins a fold, more or less, and one with at most a comment.
BEGINNING = re.compile(r"[ \t\r]*([\w.$]+[ \t\r]*:|\.(text|rodata|data|bss|section)\b)", re.IGNORECASE)
COMMENT = re.compile(r"[ \t\r]*((#|//).*)?")


def check_folds(text, folds):
    """Folds are in order and within each other or apart, each of two lines or more, from one that begins it to one with more than a comment."""
    lines = [line.decode() for line in assembled(text)]
    around, before = [len(lines)], -1
    for fold in folds:
        first, last = fold["startLine"], fold["endLine"]
        while around and around[-1] < first:
            around.pop()
        if set(fold) != {"startLine", "endLine"} or not before < first < last < len(lines) or not around or last > around[-1]:
            raise Wrong(f"{fold} of {folds}")
        if not BEGINNING.match(lines[first]) or COMMENT.fullmatch(lines[last]):
            raise Wrong(f"{fold} from {lines[first]!r} to {lines[last]!r}")
        around.append(last)
        before = first


def check_signatures(text, position, result, encoding):
    """Signatures are ways to write what stands before the position, whose operands are in order; the active one is one of them."""
    at = place_of(text, position, encoding)
    front = text[text.rfind("\n", 0, at) + 1 : at]
    for signature in result["signatures"]:
        label = signature["label"]
        name, last = label.split(" ")[0], 0
        if not re.search(rf"(^|[ \t\r:]){re.escape(name)}[^\w.$]", front, re.ASCII):
            raise Wrong(f"{label} at {front!r}")
        for parameter in signature["parameters"]:
            start, end = parameter["label"]
            if not max(last, len(name)) < start < end <= len(label) or not re.fullmatch(r"[a-z0-9()]+|\.\.\.", label[start:end]):
                raise Wrong(f"{parameter} of {label}")
            last = end
    if not 0 <= result["activeSignature"] < len(result["signatures"]) or not 0 <= result["activeParameter"] <= front.count(","):
        raise Wrong(f"{result} at {front!r}")


def check_sections(rvas, folder, text, base, sections):
    """The sections are those of the image that are not empty."""
    rows = re.findall(rb"^(\.[a-z.]+) 0x([0-9a-f]{8}) (\d+)$", image_of(rvas, folder, text, base), re.MULTILINE)
    wanted = [{"name": name.decode(), "address": int(address, 16), "size": int(size)} for name, address, size in rows if size != b"0"]
    if sections != wanted:
        raise Wrong(f"the sections are {wanted}, not {sections}")


def check_encoding(rvas, folder, text, base, position, instructions, encoding):
    """The fields of each instruction cover each bit once, from the highest on, and together the bits are the bytes of the line."""
    code = b""
    for instruction in instructions:
        end, bits = 8 * instruction["size"], ""
        for field in instruction["fields"]:
            if field["highest"] != end - 1 or len(field["bits"]) != end - field["lowest"] or not field["name"] or not field["meaning"]:
                raise Wrong(f"{field} below bit {end} of {instruction}")
            end, bits = field["lowest"], bits + field["bits"]
        if end or instruction["address"] != instructions[0]["address"] + len(code):
            raise Wrong(f"{instruction} of {instructions}")
        code += int(bits, 2).to_bytes(instruction["size"], "little")
    if instructions:
        _, address, listed = listed_hints(rvas, folder, text, encoding, base)[position["line"]]
        if (address, listed) != (f"{instructions[0]['address']:08x}", code.hex(" ")):
            raise Wrong(f"{code.hex(' ')} of {instructions}, not {listed} at {address}")
