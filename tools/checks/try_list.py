"""Listings: their tables, and their code as nasm reads it back."""
import os
import random
import re
import shutil
import struct
import subprocess

import ne
import trying
from trying import EXAMPLES, check_words, said, wrong

LINE = re.compile(r"  ([0-9A-F]{4})  ([0-9A-F]{2,20}) +(.*?)(?:  ; .*)?$")
# A jump to a place of the segment: nasm takes a plain number for a place that may be anywhere, and then chooses the long form.
JUMP = re.compile(r"^((?:lock |rep |repne )?(?:j[a-z]+|loop[a-z]*|call) )(0x[0-9A-F]+)$")
PLACE = r"\1$$+\2"


def forms():
    """Bytes of ModRM: each register with operands in memory by every kind of address, and in registers."""
    for reg in range(8):
        for mode, places in ((0, (0, 6, 7)), (1, (3, 6)), (2, (1,)), (3, (reg, (reg + 3) % 8))):
            for place in places:
                yield mode << 6 | reg << 3 | place


def instructions(chance):
    """Instructions of each opcode, with what may be behind it, and of each prefix with some opcodes; NOPs behind each."""
    prefixes = (0x26, 0x2E, 0x36, 0x3E, 0xF0, 0xF2, 0xF3)
    heads = [bytes([op]) for op in range(256) if op != 0x0F and op not in prefixes] + [bytes([0x0F, op]) for op in range(7)]
    for head in heads:
        for form in forms():
            tail = bytes(chance.choice(some) for some in ((1, 5, 0x7F, 0x80, 0xFE), (0, 0, 1, 0x80, 0xFF), (1, 0x7F, 0x81, 0xFF), (0, 0xFF, 2)))
            yield head + bytes([form]) + tail + b"\x90" * 5
    for prefix in prefixes:
        for head in heads:
            yield bytes([prefix]) + head + bytes([chance.choice(list(forms())) & 0xBF, 1, 0, 2, 0]) + b"\x90" * 5


def listed(code):
    """The lines of a listing of this code, at the offset 0200h so that no jump goes around the segment's end: offset, bytes, text."""
    code = b"\x90" * 512 + code + b"\x90" * 256
    rows = "".join(f"{at:04X}  {code[at : at + 16].hex(' ').upper()}\n" for at in range(0, len(code), 16))
    with open("code.exe", "wb") as file:
        file.write(ne.Listing(f"module A\nstack 512\nstart 1:0000\nsegment 1 code\n{rows}segment 2 data auto\n0000  00\n").file())
    status, text = said("os2list", "code.exe")
    if status:
        wrong(f"os2list: status {status}")
    found = [LINE.match(line) for line in text.splitlines()]
    return [(int(it[1], 16), bytes.fromhex(it[2]), it[3]) for it in found if it]


def is_text(text):
    """Whether this is an instruction that nasm knows: `db` is none, `esc` stands for all of D8 to DF, and WAIT is a prefix to nasm, which
    it puts before LOCK."""
    return not text.startswith("db ") and "esc" not in text.split(" ") and text != "lock wait"


def assembled(lines):
    """What nasm makes of each text, at its offset."""
    with open("code.asm", "w") as file:
        file.write("bits 16\ncpu 286\n")
        for at, code, text in lines:
            file.write(f"times {at}-($-$$) nop\n{JUMP.sub(PLACE, text) if is_text(text) else 'nop'}\n")
    run = subprocess.run(["nasm", "-f", "bin", "-o", "code.bin", "-l", "code.txt", "code.asm"], capture_output=True, text=True)
    if run.returncode:
        wrong(f"nasm: {run.stderr[:2000]}")
        return []
    with open("code.bin", "rb") as file:
        return file.read()


def plain(text):
    """A text with its numbers by value; what is exchanged or tested has no order."""
    text = re.sub(r"0x([0-9A-F]+)", lambda it: str(int(it[1], 16)), text)
    head, _, operands = text.partition(" ")
    return f"{head} {sorted(operands.split(','))}" if head in ("xchg", "test") else text


def row_of(code):
    """The row of the table that bytes belong to: their opcode, with the digit in ModRM where that chooses the instruction."""
    while code and code[0] in (0x26, 0x2E, 0x36, 0x3E, 0xF0, 0xF2, 0xF3):
        code = code[1:]
    name, rest = f"{code[0]:02X}", code[1:]
    if code[0] == 0x0F:
        name, rest = f"0F{code[1]:02X}", code[2:]
    groups = ("80", "81", "83", "8F", "C0", "C1", "C6", "C7", "D0", "D1", "D2", "D3", "F6", "F7", "FE", "FF", "0F00", "0F01")
    return f"{name}/{rest[0] >> 3 & 7}" if name in groups else name


def words_at(file, at, count):
    return struct.unpack_from(f"<{count}H", file, at)


def texts_at(file, at):
    """The texts of a table of names, with their ordinals."""
    while file[at]:
        end = at + 1 + file[at]
        yield file[at + 1 : end].decode("ascii"), words_at(file, end, 1)[0]
        at = end + 2


def table_lines(file):
    """The lines of a listing's tables, as the fields of the file say it."""
    at = struct.unpack_from("<I", file, 0x3C)[0]
    flags, auto, heap, stack, ip, cs, sp, ss, segments, references, far_len = words_at(file, at + 0x0C, 11)
    table, _, resident, modules, imported = words_at(file, at + 0x22, 5)
    far_at = struct.unpack_from("<I", file, at + 0x2C)[0]
    shift = words_at(file, at + 0x32, 1)[0]
    names = list(texts_at(file, at + resident))
    yield f"module {names[0][0]}, a {'library' if flags & 0x8000 else 'program'}"
    yield f"header at {at:X}h, flags {flags:04X}h, target {file[at + 0x36]}"
    yield f"entry point {cs}:{ip:04X}h, stack {ss}:{sp:04X}h"
    yield f"automatic data {auto}, with {stack} bytes of stack and {heap} of heap"
    yield from ("", "segments", "  no   size   place   file flags relocs kind")
    for number in range(1, segments + 1):
        sector, held, kind, size = words_at(file, at + table + 8 * (number - 1), 4)
        place, held = sector << shift, held or 65536
        held = held if place else 0
        relocs = words_at(file, place + held, 1)[0] if kind & 0x100 else 0
        what = ("data, read-only" if kind & 0x80 else "data") if kind & 1 else ("code, execute-only" if kind & 0x80 else "code")
        yield f"{number:>4} {size or 65536:>6} {place:>6X}h {held:>6} {kind:04X}h {relocs:>6} {what}"
    yield from ("", "resident names", f"    {names[0][0]}")
    yield from (f"  {ordinal:>5} {name}" for name, ordinal in names[1:])
    if far_len:
        far = list(texts_at(file, far_at))
        yield from ("", "nonresident names", f"    {far[0][0]}")
        yield from (f"  {ordinal:>5} {name}" for name, ordinal in far[1:])


def check_tables():
    """The tables of each example, and of a file with every kind of segment, against the file's fields."""
    with open("kinds.dll", "wb") as file:
        file.write(ne.Listing("module KINDS library\nexport ONE 1:0000\nexport TWO 1:0001 nonresident\nexport THREE 3:0002\n"
                              "segment 1 code readonly\n0000  90  nop\n0001  90  nop\nsegment 2 data readonly size=300\n0000  01\n"
                              "segment 3 data auto size=65536\n").file())
    files = [os.path.join(folder, name) for folder, _, names in sorted(os.walk(EXAMPLES)) for name in sorted(names) if name.endswith((".exe", ".dll"))]
    for name in ["kinds.dll", *files]:
        trying.count()
        with open(name, "rb") as file:
            wanted = list(table_lines(file.read()))
        status, text = said("os2list", name)
        if status or text.splitlines()[: len(wanted)] != wanted:
            wrong(f"os2list {name}: status {status}, {text.splitlines()[:len(wanted)]}; wanted {wanted}")
    trying.count()
    _, text = said("os2list", "kinds.dll")
    if "entries: 3\n      1 1:0000h\n      2 1:0001h\n      3 3:0002h\n" not in text:
        wrong(f"os2list kinds.dll: {text!r}; wanted three entries")


def listing_of(name, text):
    """The listing of an executable that is made of this text."""
    with open(name, "wb") as file:
        file.write(ne.Listing(text).file())
    status, listing = said("os2list", name)
    if status:
        wrong(f"os2list {name}: status {status}")
    return listing


def check_code():
    """What stands in a line of code, and what of other modules a listing tells."""
    text = listing_of("chain.exe", "module CHAIN\nstart 1:0000\nsegment 1 code\n0000  9A 06 00 00 00  call @0001 far DOSCALLS.138\n"
                      "0005  9A FF FF 00 00  call\n000A  9A FF FF 00 00  call @000B far LIB.NAME\n000F  B8 05 00  mov @0010 add-offset 2:0002\n"
                      "0012  0F FF\n0014  D8 C0 90\nsegment 2 data auto size=4\n")
    for wanted in (
        "\nmodule references: 2\n      1 DOSCALLS\n      2 LIB\n\nimports: 2\n      1 DOSCALLS.138 (DosWrite)\n      1 LIB.NAME\n\nsegment 1\n",
        "  0001h a far pointer to DOSCALLS.138 (DosWrite)\n  000Bh a far pointer to LIB.NAME\n  0010h an offset to segment 2:0002h, added\n",
        # a patched place holds the next one of its chain
        "  0000  9A06000000            call 0x0000:0x0006  ; DOSCALLS.138 (DosWrite)\n  0005  9AFFFF0000            call 0x0000:0xFFFF  ; DOSCALLS.138 (DosWrite)\n"
        "  000A  9AFFFF0000            call 0x0000:0xFFFF  ; LIB.NAME\n  000F  B80500                mov ax,0x05  ; segment 2:0002h\n"
        # what begins no instruction, an instruction of the numeric processor, and data behind that
        "  0012  0F                    db 0x0F\n  0013  FF                    db 0xFF\n",
    ):
        trying.count()
        if wanted not in text:
            wrong(f"os2list chain.exe: {text!r}; wanted {wanted!r}")
    for opcode in range(0xD8, 0xE0):
        trying.count()
        texts = [row[2] for row in listed(bytes([opcode, 0x47, 0x01, opcode, 0xC1])) if row[1][0] == opcode]
        if len(texts) != 2 or any(not text.startswith("esc ") for text in texts):
            wrong(f"os2list, opcode {opcode:02X}: {texts}")


def check_marks():
    """Which imports a shim would have to give: those from DOSCALLS that are no built service, by ordinals and by names."""
    targets = ("DOSCALLS.138", "DOSCALLS.DosExit", "doscalls.DOSWRITE", "DOSCALLS.92", "DOSCALLS.144", "DOSCALLS.DosCWait", "DOSCALLS.DosOpen", "VIOCALLS.19", "VIOCALLS.DosOpen")
    rows = "".join(f"{5 * k:04X}  9A FF FF 00 00  call @{5 * k + 1:04X} far {target}\n" for k, target in enumerate(targets))
    text = listing_of("marks.exe", f"module MARKS\nstart 1:0000\nsegment 1 code\n{rows}segment 2 data auto size=4\n")
    trying.count()
    found = sorted(line[8:] for line in text.split("\nimports: 9\n")[-1].split("\n\n")[0].splitlines())
    wanted = sorted(("DOSCALLS.138 (DosWrite)", "DOSCALLS.DosExit", "doscalls.DOSWRITE", "DOSCALLS.92, for a shim", "DOSCALLS.144 (DosExecPgm), for a shim", "DOSCALLS.DosCWait, for a shim",
                     "DOSCALLS.DosOpen, for a shim", "VIOCALLS.19", "VIOCALLS.DosOpen"))
    if found != wanted or text.count("for a shim") != 4:
        wrong(f"os2list marks.exe: {found}; wanted {wanted}")


def check_wait():
    """Of `lock wait` nasm makes the two bytes in the other order."""
    trying.count()
    texts = [text for _, code, text in listed(b"\xF0\x9B") if code == b"\xF0\x9B"]
    with open("wait.asm", "w") as file:
        file.write("bits 16\nlock wait\n")
    run = subprocess.run(["nasm", "-f", "bin", "-o", "wait.bin", "wait.asm"], capture_output=True, text=True)
    with open("wait.bin", "rb") as file:
        made = file.read()
    if run.returncode or texts != ["lock wait"] or made != b"\x9B\xF0":
        wrong(f"lock wait: {texts}, {made!r}, {run.stderr!r}")


def check_list():
    check_words("os2list", [])
    check_tables()
    check_code()
    check_marks()
    if not shutil.which("nasm"):
        print("listings: nasm isn't installed (apt-get install nasm), so none is read back")
        return
    check_wait()
    every, same, texts = {}, set(), 0
    chance = random.Random(7)
    pieces, at = [b""], 0
    for piece in instructions(chance):
        if len(pieces[-1]) + len(piece) > 0xC000:
            pieces.append(b"")
        pieces[-1] += piece
    for piece in pieces:
        lines = listed(piece)
        made = assembled(lines)
        if not made:
            continue
        again = {at: (code, text) for at, code, text in listed(made[512 : 512 + len(piece)])}
        for at, code, text in lines:
            if not is_text(text) or at < 512 or at >= 512 + len(piece):
                continue
            trying.count()
            texts += 1
            row = row_of(code)
            every.setdefault(row, text)
            back = again.get(at, (b"", ""))
            if back[0] == code:
                same.add(row)
            elif plain(back[1]) != plain(text):
                wrong(f"nasm reads {text!r}, which is {code.hex()}, as {back[1]!r}, {back[0].hex()}")
    for row, text in sorted(every.items()):
        if row not in same:
            wrong(f"opcode {row}, as {text!r}: its bytes never come back")
    print(f"listings: {texts} texts of {len(every)} opcodes read by nasm; the bytes of {len(same)} come back")
