#!/usr/bin/env python3
"""Writes the assembler source of a listing, as nasm reads it, so that a change moves each jump by itself. The source makes the same executable:

  nasm -f bin -l NAME.made -o NAME.bin NAME.asm && tools/ne.py NAME.made NAME.exe

Text that is an instruction stands as one, with names for the targets of its jumps; other bytes stand as bytes, with their text after them.
Where nasm would take other bytes for an instruction, the bytes stand there too.
"""
import os
import re
import shutil
import subprocess
import sys
import tempfile

sys.dont_write_bytecode = True
sys.path[:0] = [os.path.join(os.path.dirname(os.path.realpath(__file__)), "..", room) for room in ("lib", ".")]
import command
import instructions
import ne

JUMP = re.compile(r"(j\w+|loop\w*|call)$")
NAMED = re.compile(r"(j\w+|loop\w*|call) (short )?L[0-9A-F]{4}$")


class Line:
    """A line of a source: what is written as it is, or the bytes of a segment, with the ways to write them from the best on."""

    def __init__(self, text=None, ways=(), code=b"", note=""):
        self.text, self.ways, self.code, self.note, self.label = text, list(ways), code, note, ""

    def shown(self):
        if self.text is not None:
            return self.text
        front = (self.label + ":").ljust(8) if self.label else " " * 8
        return f"{front}{self.ways[0]:<32}{self.note}".rstrip()


def bytes_text(code):
    """Bytes as a line of data: text in quotes where it is text, and numbers."""
    if len(code) > 3 and len(set(code)) == 1:
        return f"times {len(code)} db {code[0]}"
    parts = re.findall(rb"[ -&(-~]{3,}|[\s\S]", code)
    return "db " + ", ".join(f"'{part.decode()}'" if len(part) > 2 else number(part[0]) for part in parts)


def number(value):
    """A number as the listings write it."""
    digits = f"{value:X}"
    return str(value) if value < 16 else f"0{digits}h" if digits[0].isalpha() else digits + "h"


def ways_of(said, code, offset, labels):
    """The ways to write an instruction: as its text has it, as its bytes say it, with its numbers as words, and as bytes."""
    try:
        name, operands, length = instructions.decoded(code, offset)
    except instructions.Unread:
        return [bytes_text(code)]
    plain = instructions.shown(name, operands)
    if operands and operands[0][0] == "number" and JUMP.match(name) and length == len(code):
        target = labels.get(operands[0][1])
        kind = "short " if length == 2 and name == "jmp" else ""
        return [f"{said.split()[0]} {kind}{target}", bytes_text(code)] if target else [plain, bytes_text(code)]
    far = re.match(r"(call|jmp) 0?([0-9A-F]+)h?:0?([0-9A-F]+)h?$", plain)
    ways = [f"{far[1]} {number(int(far[2], 16))}:{number(int(far[3], 16))}"] if far else [said, plain, re.sub(r"\bpush (?=[0-9])", "push strict word ", plain), re.sub(r"(, )(?=[0-9])", r"\1strict word ", plain)]
    return [*dict.fromkeys(way for way in ways if way and not re.search(r"\bseg\b", way)), bytes_text(code)]


def lines_of(text):
    """The lines of a source, from the text of a listing."""
    rows, segment, is_code, targets = [], 0, False, set()
    for line in text.replace("\r", "").split("\n"):
        body, mark, note = line.partition(";")
        words = body.split()
        if words[:1] == ["segment"]:
            segment, is_code = int(words[1]), words[2] == "code"
        rows.append((line, body.rstrip(), mark + note, segment, is_code, ne.LINE.match(body.rstrip())))
    for _, _, _, segment, is_code, found in rows:
        said = instructions.told((found[3] or "").strip()) if found and is_code else None
        if said and JUMP.match(said[0]) and said[1] and said[1][0][0] == "number":
            targets.add((segment, instructions.decoded(bytes.fromhex(found[2]), int(found[1], 16))[1][0][1]))
    starts = {(segment, int(found[1], 16)) for _, _, _, segment, is_code, found in rows if found and is_code}
    out = []
    for line, body, note, segment, is_code, found in rows:
        if not found:
            words = body.split()
            out.append(Line(f";@ {body}{'  ' + note if note else ''}" if words else line))
            if words[:1] == ["segment"]:
                out.append(Line(f"section s{segment} vstart=0"))
            if words[:1] == ["start"]:
                out.append(Line("cpu 286"))
                out.append(Line("bits 16"))
            continue
        offset, code, said = int(found[1], 16), bytes.fromhex(found[2]), (found[3] or "").strip()
        labels = {at: f"L{at:04X}" for its, at in targets & starts if its == segment}
        is_told = is_code and instructions.told(said)
        ways = ways_of(said, code, offset, labels) if is_told else [bytes_text(code)]
        called = re.match(r"(?:call|jmp) far (\w+)", said)
        behind = [f";@+{int(found[4], 16) - offset} {found[5]} {found[6]}" if found[4] else "", called[1] if called else "" if is_told or instructions.items(said) is not None else said]
        behind = " ".join(filter(None, [behind[0], (behind[1] if behind[0] else "; " + behind[1]) if behind[1] else "", note if not (behind[0] or behind[1]) else note.lstrip("; ")]))
        out.append(Line(ways=ways, code=code, note=behind))
        if is_code and offset in labels:
            out[-1].label = labels[offset]
    return out


def assembled(lines, folder):
    """What nasm makes of the lines: the listing, the bytes of each line by its number, and the lines that it refuses."""
    path = os.path.join(folder, "a.asm")
    with open(path, "w") as file:
        file.write("\n".join(line.shown() for line in lines))
    run = subprocess.run(["nasm", "-f", "bin", "-l", "a.lst", "-o", "a.bin", "a.asm"], cwd=folder, capture_output=True, text=True)
    refused = {int(at) for at in re.findall(r"(?m)^a\.asm:(\d+): error", run.stderr)}
    made, listing = {}, ""
    if os.path.exists(os.path.join(folder, "a.lst")):
        with open(os.path.join(folder, "a.lst")) as file:
            listing = file.read()
    for at, digits in re.findall(r"(?m)^ *(\d+) [0-9A-F]{8} (\S+)", listing):
        many = re.match(r"<rep ([0-9A-F]+)h>$", digits)
        if many:
            made.setdefault(int(at), []).append(int(many[1], 16))
        else:
            made.setdefault(int(at), []).append(bytes.fromhex(re.sub(r"[\[\]()-]|<rep.*", "", digits)))
    return listing, made, refused, run.stderr


def is_other(made, code):
    """Whether nasm made other bytes of a line, if it told any."""
    return made is not None and made != [code] and b"".join(it for it in made if isinstance(it, bytes)) != code


def source_of(text):
    """The source of a listing, and the executable that it makes."""
    lines = lines_of(text)
    with tempfile.TemporaryDirectory() as folder:
        for _ in range(40):
            listing, made, refused, said = assembled(lines, folder)
            wrong = [line for at, line in enumerate(lines, 1) if line.text is None and len(line.ways) > 1 and (at in refused or not refused and is_other(made.get(at), line.code))]
            # (a jump over a line that is too short is wrong only as long as that line is)
            for line in [line for line in wrong if not NAMED.match(line.ways[0])] or wrong:
                line.ways.pop(0)
            if not wrong:
                break
        if refused:
            raise ne.Refused(f"nasm refuses it: {said.strip()[:200]}")
        return "\n".join(line.shown() for line in lines), ne.Listing(listing).file()


def main():
    words = command.parser("tools/make/sources.py", __doc__)
    words.add_argument("listings", nargs="+", metavar="NAME.lst", help="listings in the form of tools/ne.py; NAME.asm is written beside each")
    given = words.parse_args()
    if not shutil.which("nasm"):
        return "tools/make/sources.py: nasm isn't installed, so nothing says whether a source makes the same bytes"
    for path in given.listings:
        try:
            text = ne.text_of(path)
            source, made = source_of(text)
            if made != ne.Listing(text).file():
                raise ne.Refused("the source makes another executable")
        except ne.Refused as why:
            return f"{path}:{why.line}: {why}" if why.line else f"{path}: {why}"
        ne.write(os.path.splitext(path)[0] + ".asm", source.encode())
    return 0


if __name__ == "__main__":
    command.end(main)
