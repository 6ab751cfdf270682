"""Instructions of the 80286 as text and as bytes: whether what a line of a listing says is what its bytes are. Text that is no instruction and
no list of strings and numbers says nothing that could be compared. So do names, of which nobody knows here what they stand for."""
import re

BYTES = ("al", "cl", "dl", "bl", "ah", "ch", "dh", "bh")
WORDS = ("ax", "cx", "dx", "bx", "sp", "bp", "si", "di")
SEGMENTS = ("es", "cs", "ss", "ds")
BASES = ("bx+si", "bx+di", "bp+si", "bp+di", "si", "di", "bp", "bx")
ALU = ("add", "or", "adc", "sbb", "and", "sub", "xor", "cmp")
SHIFTS = ("rol", "ror", "rcl", "rcr", "shl", "shr", None, "sar")
CONDITIONS = ("o", "no", "b", "nb", "z", "nz", "be", "a", "s", "ns", "p", "np", "l", "nl", "le", "g")
PLAIN = {
    0x27: "daa", 0x2F: "das", 0x37: "aaa", 0x3F: "aas", 0x60: "pusha", 0x61: "popa", 0x6C: "insb", 0x6D: "insw", 0x6E: "outsb", 0x6F: "outsw", 0x90: "nop",
    0x98: "cbw", 0x99: "cwd", 0x9B: "wait", 0x9C: "pushf", 0x9D: "popf", 0x9E: "sahf", 0x9F: "lahf", 0xA4: "movsb", 0xA5: "movsw", 0xA6: "cmpsb", 0xA7: "cmpsw",
    0xAA: "stosb", 0xAB: "stosw", 0xAC: "lodsb", 0xAD: "lodsw", 0xAE: "scasb", 0xAF: "scasw", 0xC3: "ret", 0xC9: "leave", 0xCB: "retf", 0xCC: "int3", 0xCE: "into",
    0xCF: "iret", 0xD7: "xlat", 0xF4: "hlt", 0xF5: "cmc", 0xF8: "clc", 0xF9: "stc", 0xFA: "cli", 0xFB: "sti", 0xFC: "cld", 0xFD: "std",
}
PREFIXES = {0x26: "es", 0x2E: "cs", 0x36: "ss", 0x3E: "ds", 0xF0: "lock", 0xF2: "repne", 0xF3: "rep"}
SAME = {
    "sal": "shl", "xlatb": "xlat", "retn": "ret", "fwait": "wait", "iretw": "iret", "pushfw": "pushf", "popfw": "popf", "pushaw": "pusha", "popaw": "popa", "loopz": "loope",
    "loopnz": "loopne", "repe": "rep", "repz": "rep", "repnz": "repne",
    **{"j" + one: "j" + other for one, other in (("c", "b"), ("nae", "b"), ("nc", "nb"), ("ae", "nb"), ("e", "z"), ("ne", "nz"), ("na", "be"), ("nbe", "a"), ("pe", "p"),
                                                 ("po", "np"), ("nge", "l"), ("ge", "nl"), ("ng", "le"), ("nle", "g"))},
}
NUMBER = re.compile(r"(?:0x([0-9a-f]+)|([0-9][0-9a-f]*)h|([0-9]+)|'(.)'|\"(.)\")$", re.I)
NAME = re.compile(r"[A-Za-z_.$?@][\w.$?@]*$")


class Unread(Exception):
    """The bytes are no instruction that is told here."""


class Bytes:
    """The bytes of an instruction, from the first on."""

    def __init__(self, code):
        self.code, self.at = code, 0

    def byte(self):
        if self.at >= len(self.code):
            raise Unread
        self.at += 1
        return self.code[self.at - 1]

    def word(self):
        return self.byte() | self.byte() << 8

    def signed(self):
        return (self.byte() ^ 0x80) - 0x80


def decoded(code, offset=0):
    """The instruction that begins these bytes: its name, its operands, and its length. An operand is a register's name; a number, with its
    bits; a place in memory, with its bytes or 0, its segment or None, its base and its displacement; or a far pointer."""
    take, segment, before = Bytes(code), None, []
    op = take.byte()
    while op in PREFIXES:
        if PREFIXES[op] in SEGMENTS:
            segment = PREFIXES[op]
        else:
            before.append(PREFIXES[op])
        op = take.byte()
    name, operands = instruction(take, op, segment, offset)
    return " ".join([*before, name]), operands, take.at


def number(value, bits=16):
    return "number", value % (1 << bits), bits


def modrm(take, segment, size):
    """The register's number and the operand of a ModRM byte; `size` is the bytes of an operand in memory, 0 where no text tells them."""
    byte = take.byte()
    kind, reg, place = byte >> 6, byte >> 3 & 7, byte & 7
    if kind == 3:
        return reg, (BYTES if size == 1 else WORDS)[place]
    base = BASES[place]
    if kind == 0 and place == 6:
        base, far = "", take.word()
    else:
        far = (0, take.signed, take.word)[kind]
        far = far() if kind else 0
    return reg, ("memory", size, segment, base, far % 65536)


def instruction(take, op, segment, offset):
    size = 1 if not op & 1 else 2
    names = BYTES if size == 1 else WORDS
    immediate = lambda: number(take.byte(), 8) if size == 1 else number(take.word())
    if op in PLAIN:
        return PLAIN[op], []
    if op < 0x40:
        kind = op & 7
        if kind < 4:
            reg, place = modrm(take, segment, size)
            return ALU[op >> 3], [place, names[reg]] if kind < 2 else [names[reg], place]
        if kind < 6:
            return ALU[op >> 3], [names[0], immediate()]
        if op == 0x0F:
            return system(take, segment)
        return ("push" if kind == 6 else "pop"), [SEGMENTS[op >> 3]]
    if op < 0x60:
        return ("inc", "dec", "push", "pop")[op - 0x40 >> 3], [WORDS[op & 7]]
    if op == 0x62:
        reg, place = modrm(take, segment, 0)
        return "bound", [WORDS[reg], place]
    if op == 0x63:
        reg, place = modrm(take, segment, 2)
        return "arpl", [place, WORDS[reg]]
    if op == 0x68:
        return "push", [number(take.word())]
    if op == 0x6A:
        return "push", [number(take.signed())]
    if op in (0x69, 0x6B):
        reg, place = modrm(take, segment, 2)
        return "imul", [WORDS[reg], place, number(take.word() if op == 0x69 else take.signed())]
    if 0x70 <= op < 0x80:
        return "j" + CONDITIONS[op & 15], [jump(take, offset, 1)]
    if op in (0x80, 0x81, 0x83):
        reg, place = modrm(take, segment, size)
        return ALU[reg], [place, number(take.signed()) if op == 0x83 else immediate()]
    if op in (0x84, 0x85, 0x86, 0x87):
        reg, place = modrm(take, segment, size)
        return ("test" if op < 0x86 else "xchg"), [place, names[reg]]
    if 0x88 <= op < 0x8C:
        reg, place = modrm(take, segment, size)
        return "mov", [place, names[reg]] if op < 0x8A else [names[reg], place]
    if op in (0x8C, 0x8E):
        reg, place = modrm(take, segment, 2)
        if reg > 3:
            raise Unread
        return "mov", [place, SEGMENTS[reg]] if op == 0x8C else [SEGMENTS[reg], place]
    if op in (0x8D, 0xC4, 0xC5):
        reg, place = modrm(take, segment, 0)
        return {0x8D: "lea", 0xC4: "les", 0xC5: "lds"}[op], [WORDS[reg], place]
    if op == 0x8F:
        return "pop", [modrm(take, segment, 2)[1]]
    if 0x90 < op < 0x98:
        return "xchg", ["ax", WORDS[op & 7]]
    if op in (0x9A, 0xEA):
        far = take.word()
        return ("call" if op == 0x9A else "jmp"), [("far", take.word(), far)]
    if 0xA0 <= op < 0xA4:
        place = "memory", size, segment, "", take.word()
        return "mov", [names[0], place] if op < 0xA2 else [place, names[0]]
    if op in (0xA8, 0xA9):
        return "test", [names[0], immediate()]
    if 0xB0 <= op < 0xC0:
        return "mov", [BYTES[op & 7], number(take.byte(), 8)] if op < 0xB8 else [WORDS[op & 7], number(take.word())]
    if op in (0xC0, 0xC1, 0xD0, 0xD1, 0xD2, 0xD3):
        reg, place = modrm(take, segment, size)
        if not SHIFTS[reg]:
            raise Unread
        return SHIFTS[reg], [place, number(take.byte(), 8) if op < 0xD0 else number(1, 8) if op < 0xD2 else "cl"]
    if op in (0xC2, 0xCA):
        return ("ret" if op == 0xC2 else "retf"), [number(take.word())]
    if op in (0xC6, 0xC7):
        return "mov", [modrm(take, segment, size)[1], immediate()]
    if op == 0xC8:
        return "enter", [number(take.word()), number(take.byte(), 8)]
    if op == 0xCD:
        return "int", [number(take.byte(), 8)]
    if op in (0xD4, 0xD5):
        base = take.byte()
        return ("aam" if op == 0xD4 else "aad"), [] if base == 10 else [number(base, 8)]
    if 0xE0 <= op < 0xE4:
        return ("loopne", "loope", "loop", "jcxz")[op & 3], [jump(take, offset, 1)]
    if 0xE4 <= op < 0xE8:
        port = number(take.byte(), 8)
        return ("in", [names[0], port]) if op < 0xE6 else ("out", [port, names[0]])
    if op in (0xE8, 0xE9, 0xEB):
        return ("call" if op == 0xE8 else "jmp"), [jump(take, offset, 1 if op == 0xEB else 2)]
    if 0xEC <= op < 0xF0:
        return ("in", [names[0], "dx"]) if op < 0xEE else ("out", ["dx", names[0]])
    if op in (0xF6, 0xF7):
        reg, place = modrm(take, segment, size)
        if reg == 1:
            raise Unread
        return ("test", None, "not", "neg", "mul", "imul", "div", "idiv")[reg], [place, immediate()] if reg == 0 else [place]
    if op in (0xFE, 0xFF):
        reg, place = modrm(take, segment, size)
        if reg == 7 or op == 0xFE and reg > 1:
            raise Unread
        if reg in (3, 5):
            place = (place[0], 0, *place[2:]) if isinstance(place, tuple) else place
        return ("inc", "dec", "call", "call", "jmp", "jmp", "push")[reg], [place]
    raise Unread


def system(take, segment):
    op = take.byte()
    if op in (0, 1):
        reg, place = modrm(take, segment, 2 if op == 0 else 0)
        name = (("sldt", "str", "lldt", "ltr", "verr", "verw", None, None), ("sgdt", "sidt", "lgdt", "lidt", "smsw", None, "lmsw", None))[op][reg]
        if not name:
            raise Unread
        return name, [place]
    if op in (2, 3):
        reg, place = modrm(take, segment, 2)
        return ("lar" if op == 2 else "lsl"), [WORDS[reg], place]
    if op == 6:
        return "clts", []
    raise Unread


def jump(take, offset, size):
    far = take.signed() if size == 1 else take.word()
    return number(offset + take.at + far)


NAMES = {*PLAIN.values(), *ALU, *filter(None, SHIFTS), *("j" + it for it in CONDITIONS), *SAME, "push", "pop", "inc", "dec", "bound", "arpl", "imul", "test", "xchg", "mov", "lea",
         "les", "lds", "call", "jmp", "ret", "retf", "enter", "int", "aam", "aad", "loop", "loope", "loopne", "jcxz", "in", "out", "not", "neg", "mul", "div", "idiv", "sldt", "str",
         "lldt", "ltr", "verr", "verw", "sgdt", "sidt", "lgdt", "lidt", "smsw", "lmsw", "lar", "lsl", "clts"}


def value(text):
    """The number that a text writes, or None."""
    found = NUMBER.match(text)
    if not found:
        return None
    if found[1] or found[2]:
        return int(found[1] or found[2], 16)
    return int(found[3]) if found[3] else ord(found[4] or found[5])


def operand(text):
    """An operand of a text, in the form of `decoded`; `name` for what a name stands for; None where it is none."""
    text = re.sub(r"^(?:near|short|strict)\s+", "", text.strip())
    if text.lower() in (*BYTES, *WORDS, *SEGMENTS):
        return text.lower()
    size = re.match(r"(byte|word|far|dword)(?:\s+ptr)?\s*(.*)$", text, re.I)
    kind, text = (size[1].lower(), size[2]) if size else (None, text)
    place = re.match(r"(?:([ecsd]s):)?\s*\[(?:([ecsd]s):)?\s*([^\]]*)\]$", text, re.I)
    if place:
        segment = (place[1] or place[2] or "").lower() or None
        base, far = [], 0
        for sign, part in re.findall(r"([+-]?)\s*([^+-]+)", place[3]):
            part = part.strip().lower()
            if part in WORDS and sign != "-":
                base.append(part)
            elif value(part) is not None:
                far += -value(part) if sign == "-" else value(part)
            elif NAME.match(part):
                return "name"
            else:
                return None
        base = "+".join(sorted(base, key=lambda it: it in ("si", "di")))
        return ("memory", {"byte": 1, "word": 2}.get(kind, 0), segment, base, far % 65536) if base in ("", *BASES) else None
    pair = re.match(r"([^:]+):([^:]+)$", text)
    if re.match(r"[0-9A-F]{4}:[0-9A-F]{4}$", text):
        return "far", int(text[:4], 16), int(text[5:], 16)
    if pair and value(pair[1]) is not None and value(pair[2]) is not None:
        return "far", value(pair[1]), value(pair[2])
    negative = text.startswith("-")
    found = value(text.removeprefix("-"))
    if found is not None:
        return "number", -found if negative else found, 0
    if NAME.match(text) or re.match(r"(seg|offset)\s+\S+$", text) or re.match(r"[A-Za-z_.][\w.]*\s*[+-]\s*\w+$", text):
        return "name"
    return None


def parted(text):
    """The parts of a text between its commas, those inside of quotes left out; None where a quote isn't closed."""
    if not re.fullmatch(r"(?:'[^']*'|\"[^\"]*\"|[^'\"])*", text):
        return None
    return [part.strip() for part in re.findall(r"(?:'[^']*'|\"[^\"]*\"|[^,'\"])+", text)]


def told(text):
    """The name and the operands of an instruction in a text, or None where it is none."""
    words = text.split(None, 1)
    before = []
    while words and words[0].lower() in ("rep", "repe", "repz", "repne", "repnz", "lock") and len(words) > 1:
        before.append(SAME.get(words[0].lower(), words[0].lower()))
        words = words[1].split(None, 1)
    if not words or words[0].lower() not in NAMES:
        return None
    name, rest = words[0].lower(), words[1] if len(words) > 1 else ""
    parts = parted(rest) if rest else []
    operands = [operand(part) for part in parts or []]
    if parts is None or None in operands:
        return None
    return " ".join([*before, SAME.get(name, name)]), operands


def is_same(one, other, is_patched):
    """Whether an operand of a text is that of the bytes."""
    if one == "name" or is_patched and not isinstance(one, str):
        return not isinstance(other, str)
    if isinstance(one, str) or isinstance(other, str):
        return one == other
    if one[0] != other[0]:
        return False
    if one[0] == "number":
        return (one[1] - other[1]) % (1 << other[2]) == 0 and -32768 <= one[1] < 65536 and (other[2] == 16 or -128 <= one[1] < 256)
    if one[0] == "memory":
        return (one[1] in (0, other[1]) or other[1] == 0) and one[2:] == other[2:]
    return one == other


def shown(name, operands):
    """An instruction as text."""
    def text(it):
        if isinstance(it, str):
            return it
        if it[0] == "number":
            return f"0{it[1]:X}h" if it[1] > 9 else str(it[1])
        if it[0] == "far":
            return f"0{it[1]:X}h:0{it[2]:X}h"
        _, size, segment, base, far = it
        place = "+".join(part for part in (base, "" if base and not far else f"0{far:X}h" if far > 9 else str(far)) if part)
        return {1: "byte ", 2: "word ", 0: ""}[size] + (f"{segment}:" if segment else "") + f"[{place}]"

    return f"{name} {', '.join(map(text, operands))}".rstrip()


def items(text):
    """The bytes of a list of strings and numbers, as `'hello', 10`, or None where a text is none."""
    size = re.match(r"(db|dw)\s+(.*)$", text, re.I)
    if not size and text[:1] not in "'\"":
        return None
    width, out = 2 if size and size[1].lower() == "dw" else 1, b""
    for part in parted(size[2] if size else text) or [""]:
        quoted = re.match(r"'([^']*)'$|\"([^\"]*)\"$", part)
        if quoted and width == 1:
            out += (quoted[1] if quoted[1] is not None else quoted[2]).encode("latin-1")
        elif value(part) is not None and value(part) < 1 << 8 * width:
            out += value(part).to_bytes(width, "little")
        else:
            return None
    return out


def differs(text, code, offset, is_code, is_patched):
    """What a line's text and its bytes differ in, or None. `is_patched` says that a relocation stands in the line, so that its numbers count for
    nothing."""
    listed = items(text)
    if listed is not None:
        same = listed == code or is_patched
        return None if same else f"the bytes are {code.hex(' ').upper()}, and the text says {listed.hex(' ').upper()}: {text}"
    said = told(text) if is_code else None
    if not said:
        return None
    try:
        name, operands, length = decoded(code, offset)
    except Unread:
        return f"the bytes {code.hex(' ').upper()} are no such instruction: {text}"
    wanted = shown(name, operands)
    if length != len(code):
        return f"the bytes are more than one instruction, of which the first is `{wanted}`: {text}"
    name_said, operands_said = said
    # (a text that is a name alone, as `call`, says nothing of operands)
    pairs = [operands_said or operands]
    if name in ("test", "xchg"):
        pairs.append(operands_said[::-1])
    if name == "imul" and len(operands) == 3 and len(operands_said) == 2:
        pairs.append([operands_said[0], *operands_said])
    for each in pairs:
        if name == name_said and len(each) == len(operands) and all(is_same(one, other, is_patched) for one, other in zip(each, operands)):
            return None
    return f"the bytes are `{wanted}`, and the text says otherwise: {text}"
