"""What docs/FORMATS.md says of reading scripts and records, as a plain program, for tests/refusals and tests/hostile: which line is
refused, and why.

It is not proved, and no verdict rests on it.
"""
import re

from rules import KERNEL_TYPES, World, BIT, rights_of, spelled

WORD, UPPER, NUMBER = r"[a-z][a-z0-9_]{0,31}", r"[A-Z][A-Z0-9]*(?:\+[A-Z][A-Z0-9]*)*", r"[0-9]+"
INDEX = rf"(?:{NUMBER}|r[0-7])"
FORMS = {"word": re.compile(WORD), "upper": re.compile(UPPER), "dash": re.compile("-"), "number": re.compile(NUMBER),
         "path": re.compile(rf"{INDEX}(?:\.{INDEX}){{1,7}}")}
REGISTER = re.compile("r[0-7]")
PLAIN_TYPES = ("DATA", "UNIVERSAL")
CALLS = {
    "getdata": "PATH OP REG", "putdata": "PATH OP OP", "adddata": "PATH OP", "length": "PATH REG", "load": "PATH SLOT", "store": "PATH OP SLOT",
    "append": "PATH SLOT", "erase": "PATH OP", "drop": "SLOT", "restrict": "SLOT RIGHTS", "look": "PATH REG", "create": "PATH SLOT",
    "merge": "PATH SLOT SLOT", "copy": "PATH SLOT", "p": "PATH", "v": "PATH", "yield": "", "set": "REG OP", "add": "REG OP", "goto": "LABEL",
    "ifeq": "OP OP LABEL", "iflt": "OP OP LABEL", "ifdenied": "LABEL", "label": "NEW",
}
ENTRIES = {"empty": "", "cap": "OBJECT RIGHTS", "amplify": "KIND RIGHTS RIGHTS", "create": "TYPE RIGHTS"}
HEADS = {"limit": "LIMIT", "type": "NAME", "object": "NAME TYPE", "semaphore": "NAME COUNT", "procedure": "NAME CODE", "code": "NAME", "process": "NAME CODE"}
LINES = {"object": {"words": "", **ENTRIES}, "procedure": {"param": "KIND RIGHTS RIGHTS", **ENTRIES}, "code": {**CALLS, "template": "", "call": "", "return": ""},
         "process": ENTRIES}
RANGES = {"HEADER": (1, 1), "LIMIT": (1, 1_000_000), "COUNT": (0, 65_535), "SLOT": (0, 63)}
REPLIES = re.compile(r"done|waits|word (\d+)|(?:range|empty|notcap|wrongtype|badtemplate) (\d+)|denied (\d+) ([A-Z0-9]+)|count|deep"
                     r"|full (?:words|entries|objects|slots|tokens)")
AUDITED = {
    "getdata": "PATH N", "putdata": "PATH N N", "adddata": "PATH N", "length": "PATH", "load": "PATH S", "store": "PATH N S", "append": "PATH S",
    "erase": "PATH N", "drop": "S", "restrict": "S RIGHTS", "look": "PATH", "create": "PATH S", "merge": "PATH S S", "copy": "PATH S", "p": "PATH",
    "v": "PATH", "yield": "",
}


class Refused(Exception):
    """A line is refused for a cause."""

    def __init__(self, line, cause):
        super().__init__(f"line {line}: {cause}")
        self.line, self.cause = line, cause


def cut(source):
    """The lines of some bytes: what stands behind the last line feed is one too, if anything does."""
    lines = source.split(b"\n")
    return lines[:-1] if lines[-1] == b"" else lines


def pieces_of(number, line):
    """The pieces of a line."""
    if any(byte > 126 or byte < 32 and byte not in b"\t\r" for byte in line):
        raise Refused(number, "NotAscii")
    if len(line) > 1000:
        raise Refused(number, "LongLine")
    pieces = line.decode().split("#")[0].split()
    for piece in pieces:
        if form(piece) is None:
            raise Refused(number, "BadToken")
        if form(piece) in ("number", "path") and any(int(n) >= 2**32 for n in re.findall(r"(?<![r0-9])[0-9]+", piece)):
            raise Refused(number, "NumberTooLarge")
    return pieces


def form(piece):
    return next((name for name, known in FORMS.items() if known.fullmatch(piece)), None)


def is_register(piece):
    return REGISTER.fullmatch(piece) is not None


def fits(kind, piece):
    """Whether a piece is of the form that is wanted."""
    of = form(piece)
    if kind in ("TYPE", "OBJECT", "KIND"):
        return of in ("word", "upper")
    if kind == "RIGHTS":
        return of in ("upper", "dash")
    if kind in ("CODE", "LABEL", "NEW"):
        return of == "word"
    if kind == "NAME":
        return of == "word" and piece != "any" and not is_register(piece)
    if kind == "PATH":
        return of in ("path", "number") or is_register(piece)
    if kind == "REG":
        return is_register(piece)
    return of == "number" or kind == "OP" and is_register(piece)


def is_out_of_range(kind, piece):
    if kind == "PATH":
        indices = piece.split(".")
        return any(not is_register(index) and int(index) > (65_535 if at else 63) for at, index in enumerate(indices))
    return kind in RANGES and not RANGES[kind][0] <= int(piece) <= RANGES[kind][1]


def take(number, kinds, pieces):
    """Tests pieces against the kinds that are wanted, from the left."""
    for at, kind in enumerate(kinds):
        if at >= len(pieces):
            raise Refused(number, "Missing")
        if not fits(kind, pieces[at]):
            raise Refused(number, "UnknownWord")
        if is_out_of_range(kind, pieces[at]):
            raise Refused(number, "OutOfRange")
    if len(pieces) > len(kinds):
        raise Refused(number, "Extra")


def kinds_of(number, verb, pieces, known):
    """The kinds of pieces that are wanted behind the first word of a line."""
    if verb == "words":
        return ["N"] * max(1, len(pieces))
    if verb == "return":
        return ["SLOT"] * min(1, len(pieces))
    if verb == "call":
        return ["PATH"] + ["SLOT"] * max(1, len(pieces) - 1)
    if verb == "template":
        take(number, ["PATH"], pieces[:1])
        if len(pieces) < 2:
            raise Refused(number, "Missing")
        if pieces[1] not in ("amplify", "create"):
            raise Refused(number, "UnknownWord")
        return ["PATH", "LABEL", *["RIGHTS"] * (2 if pieces[1] == "amplify" else 1), "SLOT"]
    return known[verb].split()


def tested(number, pieces, known):
    """Tests a line whose first words are known."""
    verb, *rest = pieces
    if verb not in known:
        raise Refused(number, "UnknownWord")
    if verb == "call" and len(rest) > 10:
        take(number, ["PATH", *["SLOT"] * 9], rest[:10])
        raise Refused(number, "OutOfRange" if form(rest[10]) == "number" else "UnknownWord")
    take(number, kinds_of(number, verb, rest, known), rest)


def items_of(lines):
    """The items of numbered lines of pieces: head and lines, each with its number."""
    if not lines:
        raise Refused(1, "Missing")
    number, header = lines[0]
    if header[0] != "hydra":
        raise Refused(number, "UnknownWord")
    take(number, ["HEADER"], header[1:])
    items, names, labels, item = [], set(), set(), None
    for number, pieces in lines[1:]:
        if item is None:
            tested(number, pieces, HEADS)
            given = "limit" if pieces[0] == "limit" else f"name {pieces[1]}"
            if given in names:
                raise Refused(number, "Repeated")
            names.add(given)
            items.append((number, pieces, []))
            item, labels = items[-1] if pieces[0] in LINES else None, set()
        elif pieces[0] == "end":
            take(number, [], pieces[1:])
            item = None
        else:
            tested(number, pieces, LINES[item[1][0]])
            if pieces[0] == "label":
                if pieces[1] in labels:
                    raise Refused(number, "Repeated")
                labels.add(pieces[1])
            item[2].append((number, pieces))
    if item:
        raise Refused(item[0], "Unclosed")
    return items


class Loading:
    """What the heads declare, and how many of each stand already."""

    def __init__(self, items):
        heads = [head for _, head, _ in items]
        self.types = {*KERNEL_TYPES, *(head[1] for head in heads if head[0] == "type")}
        self.objects = {*KERNEL_TYPES, *(head[1] for head in heads if head[0] in ("type", "object", "semaphore", "procedure"))}
        self.codes = {head[1] for head in heads if head[0] == "code"}
        self.many = {"objects": 7, "codes": 0, "processes": 0}
        for number, head, lines in items:
            self.item(number, head, lines)

    def look_up(self, number, kinds, pieces, labels=()):
        for kind, piece in zip(kinds, pieces):
            wanted = {"TYPE": self.types, "KIND": self.types | {"any"}, "OBJECT": self.objects, "CODE": self.codes, "LABEL": labels}.get(kind)
            if wanted is not None and piece not in wanted:
                raise Refused(number, "UnknownName")
            if kind == "RIGHTS" and piece not in ("-", "ALL") and not all(name in BIT for name in piece.split("+")):
                raise Refused(number, "BadRights")

    def item(self, number, head, lines):
        word = head[0]
        self.look_up(number, HEADS[word].split(), head[1:])
        if word == "object" and head[2] in KERNEL_TYPES and head[2] not in PLAIN_TYPES:
            raise Refused(number, "WrongPart")
        counted = {"code": "codes", "process": "processes", "limit": None}.get(word, "objects")
        if counted:
            self.many[counted] += 1
            if self.many[counted] > {"objects": 65_536, "codes": 4_096, "processes": 256}[counted]:
                raise Refused(number, "TooMany")
        labels = {pieces[1] for _, pieces in lines if pieces[0] == "label"}
        parts = {"words": 0, "entries": 0, "params": 0, "steps": 0}
        for at, pieces in lines:
            self.line(at, head, pieces, labels, parts)

    def line(self, number, head, pieces, labels, parts):
        verb, *rest = pieces
        kinds = kinds_of(number, verb, rest, LINES[head[0]])
        self.look_up(number, kinds if verb != "template" else [kinds[0], "N", *kinds[2:]], rest, labels)
        if head[0] == "code":
            part, more, most = "steps", verb != "label", 4_096
        elif verb == "words":
            part, more, most = "words", len(rest), 4_096
        elif verb == "param":
            part, more, most = "params", 1, 8
        else:
            part, more, most = "entries", 1, 64 if head[0] == "process" else 256
            if head[0] == "object" and head[2] == "DATA":
                raise Refused(number, "WrongPart")
        parts[part] += more
        if parts[part] > most:
            raise Refused(number, "TooMany")


def read_script(source):
    """Refuses a script, or not."""
    lines = [(number, pieces_of(number, line)) for number, line in enumerate(cut(source), 1)]
    Loading(items_of([(number, pieces) for number, pieces in lines if pieces]))


def is_number(text, below):
    return re.fullmatch("0|[1-9][0-9]*", text) is not None and len(text) <= 20 and int(text) < below


def is_operand(kind, text):
    if kind == "PATH":
        indices = text.split(".")
        return len(indices) <= 8 and all(is_number(index, 65_536) for index in indices)
    if kind == "RIGHTS":
        return text == "-" or all(name in BIT for name in text.split("+")) and spelled(rights_of(text)) == text or text == "ALL"
    return is_number(text, 256 if kind == "S" else 2**32)


def is_call(pieces):
    verb, rest = pieces[0], pieces[1:]
    if verb == "return":
        kinds = ["S"] * min(1, len(rest))
    elif verb == "call":
        kinds = ["PATH"] + ["S"] * min(9, max(1, len(rest) - 1))
    elif verb == "template" and rest[1:2] in (["amplify"], ["create"]):
        kinds = ["PATH", *["RIGHTS"] * (2 if rest[1] == "amplify" else 1), "S"]
        rest = rest[:1] + rest[2:]
    elif verb in AUDITED:
        kinds = AUDITED[verb].split()
    else:
        return False
    return len(kinds) == len(rest) and all(map(is_operand, kinds, rest))


def is_audit_line(text):
    """Whether a text is that of a line, without its line feed."""
    front, arrow, reply = text.partition(" -> ")
    head = front.split(" ")
    told = REPLIES.fullmatch(reply)
    if not arrow or told is None or len(head) < 4 or not all(map(is_number, head[:3], (16, 256, 2**64))):
        return False
    word, step, denied, right = told.groups()
    if not all(number is None or is_number(number, below) for number, below in ((word, 2**32), (step, 256), (denied, 256))):
        return False
    if right is not None and right not in BIT:
        return False
    return head[3:] in (["dispatch"], ["halt"]) or is_call(head[3:])


def read_record(source):
    """The script of a record, its audit lines and its end line; or it is refused."""
    lines = cut(source)
    at = lines.index(b"record") if b"record" in lines else len(lines)
    script = b"".join(line + b"\n" for line in lines[:at])
    read_script(script)
    if at == len(lines):
        raise Refused(len(lines) + 1, "Missing")
    ended = source.endswith(b"\n")
    told = []
    for number, line in enumerate(lines[at + 1:], at + 2):
        whole = ended or number < len(lines)
        text = line.decode("latin-1")
        if whole and text in ("end done", "end stuck", "end limit"):
            if number < len(lines):
                raise Refused(number + 1, "Extra")
            return script, told, text
        if not whole or not is_audit_line(text):
            raise Refused(number, "BadLine")
        told.append(text)
    raise Refused(len(lines) + 1, "Missing")


def verdict(script, told, end):
    """Whether a record is legal, by tools/rules.py. Its script is canonical."""
    world = World(script.decode().splitlines())
    for number, line in enumerate(told, 1):
        front, _, reply = line.partition(" -> ")
        cpu, proc, inc, what = front.split(" ", 3)
        made = world.step(int(cpu))
        if made is None:
            return f"illegal {number} Cpu"
        for cause, told_is, step_is in (("Process", (proc, inc), made[:2]), ("Call", what, made[2]), ("Reply", reply, made[3])):
            if told_is != step_is:
                return f"illegal {number} {cause}"
    return "legal" if end == f"end {world.end_word()}" else f"illegal {len(told) + 1} EndWord"
