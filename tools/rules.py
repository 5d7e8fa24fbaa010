"""The rules of docs/RULES.md as a plain program: what a processor does next, and why a call is refused. tools/explain, tools/told.py,
tools/bounds.py and tools/reading.py stand on it.

It is not proved, and no verdict of the program rests on it. It reads scripts that are right and have no comments and no empty lines, as
canonical ones. tests/tools compares its runs with the worked rows.
"""
from dataclasses import dataclass, field

NAMES = ["GETDATA", "PUTDATA", "ADDDATA", "LOAD", "STORE", "APPEND", "KILL", "COPY", "MODIFY", "ENV", "UNCONF",
         *[""] * 5, *(f"A{n}" for n in range(8))]
BIT = {name: 1 << n for n, name in enumerate(NAMES) if name}
ALL = sum(BIT.values())
MODIFY, ENV, UNCONF, LOAD = BIT["MODIFY"], BIT["ENV"], BIT["UNCONF"], BIT["LOAD"]
SPECIAL = MODIFY | ENV | UNCONF
KERNEL_TYPES = ["TYPE", "DATA", "UNIVERSAL", "SEMAPHORE", "PROCEDURE", "PROCESS", "LNS"]
TYPE, DATA, UNIVERSAL, SEMAPHORE, PROCEDURE, PROCESS, LNS = range(7)
OBJECTS, WORDS, ENTRIES, SLOTS, DEPTH, TOKENS, LOCAL_STEPS, WORD = 65_536, 4_096, 256, 64, 64, 65_535, 10_000, 2**32
FORMS = {
    "getdata": "getdata PATH AT REG", "putdata": "putdata PATH AT WORD", "adddata": "adddata PATH WORD",
    "length": "length PATH REG", "load": "load PATH INTO", "store": "store PATH AT FROM", "append": "append PATH FROM",
    "erase": "erase PATH AT", "drop": "drop SLOT", "restrict": "restrict SLOT RIGHTS", "look": "look PATH REG",
    "create": "create PATH INTO in a code, create TYPE GIVE in an object, a procedure or a process", "merge": "merge PATH CAP INTO",
    "template": "template PATH amplify CHECK GIVE INTO, or template PATH create GIVE INTO", "copy": "copy PATH INTO",
    "call": "call PATH ARG.. INTO", "return": "return, or return SLOT", "p": "p PATH", "v": "v PATH", "yield": "yield",
    "set": "set REG OP", "add": "add REG OP", "goto": "goto L", "ifeq": "ifeq OP OP L", "iflt": "iflt OP OP L", "ifdenied": "ifdenied L",
    "label": "label L", "words": "words N N ..", "cap": "cap OBJECT RIGHTS", "amplify": "amplify KIND CHECK GIVE", "empty": "empty",
    "param": "param KIND CHECK GIVE", "limit": "limit N", "type": "type NAME", "object": "object NAME TYPE", "semaphore": "semaphore NAME N",
    "procedure": "procedure NAME CODE", "code": "code NAME", "process": "process NAME CODE", "hydra": "hydra 1", "end": "end",
}
# What a call asks of its target: the types, and the rights.
ASKS = {
    "getdata": ("general", "GETDATA"), "putdata": ("general", "PUTDATA+MODIFY"), "adddata": ("general", "ADDDATA+MODIFY"),
    "length": ("general", "GETDATA"), "store": ("listed", "STORE+MODIFY"), "append": ("listed", "APPEND+MODIFY"),
    "erase": ("listed", "KILL+MODIFY"), "template": ("TYPE", "ENV+A0"), "copy": ("general", "COPY"), "call": ("PROCEDURE", "A0"),
    "p": ("SEMAPHORE", "MODIFY+A0"), "v": ("SEMAPHORE", "MODIFY+A1"),
}


def rights_of(text):
    """The set that a spelling means."""
    return 0 if text == "-" else ALL if text == "ALL" else sum({BIT[name] for name in text.split("+")})


def spelled(rights):
    """The canonical spelling of a set."""
    names = [name for name in NAMES if name and rights & BIT[name]]
    return "-" if not names else "ALL" if rights == ALL else "+".join(names)


def first_missing(held, needed):
    """The name of the first right that is needed and not held, or None."""
    return next((name for name in NAMES if name and needed & BIT[name] & ~held), None)


@dataclass(frozen=True)
class Cap:
    name: int
    rights: int


@dataclass(frozen=True)
class Template:
    kind: str
    of: object
    check: int
    give: int


@dataclass
class Object:
    of: int
    words: list = field(default_factory=list)
    entries: list = field(default_factory=list)
    count: int = 0
    waiters: list = field(default_factory=list)
    code: int = 0
    params: list = field(default_factory=list)


@dataclass
class Incarnation:
    proc: int
    slots: list
    caller: object = None
    into: int = 0
    confined: bool = False


@dataclass
class Frame:
    code: int
    at: int = 0
    regs: list = field(default_factory=lambda: [0] * 8)
    refused: bool = False


@dataclass
class Process:
    frames: list
    current: int
    state: str = "ready"
    on: object = None


class Refused(Exception):
    """A call is refused: the reply, and the reason in words."""

    def __init__(self, reply, why):
        super().__init__(reply)
        self.reply, self.why = reply, why


class World:
    """A state, from a canonical script, with the control of its processes."""

    def __init__(self, lines):
        self.objects = {n: Object(TYPE) for n in range(7)}
        self.labels = dict(enumerate(KERNEL_TYPES))
        self.limit, self.codes, self.processes, self.incarnations, self.ready, self.events = 10_000, [], [], {}, [], 0
        items = list(self.items(lines))
        heads = [head for head, _ in items]
        declared = [head[1] for head in heads if head[0] in ("type", "object", "semaphore", "procedure")]
        self.named = {**{name: n for n, name in enumerate(KERNEL_TYPES)}, **{name: n for n, name in enumerate(declared, 7)}}
        self.code_named = {head[1]: n for n, head in enumerate(head for head in heads if head[0] == "code")}
        for head, body in items:
            self.declare(head, body)
        self.first_made = self.next_name = 7 + len(declared)
        self.next_inc = len(self.processes)

    @staticmethod
    def items(lines):
        """Each item: the pieces of its head, and those of its lines."""
        body, head = [], None
        for pieces in (line.split() for line in lines[1:]):
            if head:
                if pieces == ["end"]:
                    yield head, body
                    head = None
                else:
                    body.append(pieces)
            elif pieces[0] in ("limit", "type", "semaphore"):
                yield pieces, []
            else:
                head, body = pieces, []

    def kind(self, text):
        return None if text == "any" else self.named[text]

    def entry(self, pieces):
        if pieces[0] == "empty":
            return None
        if pieces[0] == "cap":
            return Cap(self.named[pieces[1]], rights_of(pieces[2]))
        if pieces[0] == "create":
            return Template("create", self.named[pieces[1]], 0, rights_of(pieces[2]))
        return Template("amplify", self.kind(pieces[1]), rights_of(pieces[2]), rights_of(pieces[3]))

    def declare(self, head, body):
        word = head[0]
        if word == "limit":
            self.limit = int(head[1])
        elif word == "code":
            self.codes.append(assembled(body))
        elif word == "process":
            slots = [self.entry(line) for line in body]
            number = len(self.processes)
            self.incarnations[number] = Incarnation(number, slots + [None] * (SLOTS - len(slots)))
            self.processes.append(Process([Frame(self.code_named[head[2]])], number))
            self.ready.append(number)
        else:
            of = {"type": TYPE, "semaphore": SEMAPHORE, "procedure": PROCEDURE}
            made = Object(of[word] if word in of else self.named[head[2]])
            made.count = int(head[2]) if word == "semaphore" else 0
            made.code = self.code_named[head[2]] if word == "procedure" else 0
            made.words = [int(n) for line in body if line[0] == "words" for n in line[1:]]
            made.params = [self.entry(["amplify", *line[1:]]) for line in body if line[0] == "param"]
            made.entries = [self.entry(line) for line in body if line[0] not in ("words", "param")]
            self.objects[self.named[head[1]]] = made
            self.labels[self.named[head[1]]] = head[1]

    # In words, for reasons.

    def called(self, name):
        return f"`{self.labels[name]}`" if name in self.labels else f"the object {name}, which was made in the run"

    def told(self, entry):
        if entry is None:
            return "nothing"
        if isinstance(entry, Cap):
            return f"a capability for {self.called(entry.name)} with {'no right' if not entry.rights else spelled(entry.rights)}"
        of = "any type" if entry.of is None else self.called(entry.of)
        return f"a template ({entry.kind}) of {of}"

    # Walks and tests, in the order in which they refuse.

    def capability(self, entry, step):
        if entry is None:
            raise Refused(f"empty {step}", f"nothing stands at step {step}")
        if not isinstance(entry, Cap):
            raise Refused(f"notcap {step}", f"at step {step} stands {self.told(entry)}, and no capability")
        return entry

    def needs(self, cap, rights, step):
        missing = first_missing(cap.rights, rights)
        if missing:
            lacks = f"{missing} is asked for" if rights == BIT[missing] else f"of {spelled(rights)}, which is asked for, the first that it lacks is {missing}"
            raise Refused(f"denied {step} {missing}", f"at step {step} stands {self.told(cap)}; {lacks}")

    @staticmethod
    def reduced(cap, entry):
        if not isinstance(entry, Cap):
            return entry
        lost = (0 if cap.rights & UNCONF else MODIFY | UNCONF) | (0 if cap.rights & ENV else ENV)
        return Cap(entry.name, entry.rights & ~lost)

    def walk(self, slots, path):
        if path[0] >= SLOTS:
            raise Refused("range 0", f"there are {SLOTS} slots, and no slot {path[0]}")
        at = slots[path[0]]
        for step, index in enumerate(path[1:], 1):
            cap = self.capability(at, step - 1)
            self.needs(cap, LOAD, step - 1)
            entries = self.objects[cap.name].entries
            if index >= len(entries):
                listed = f"the list of {self.called(cap.name)} has {len(entries)} entries"
                raise Refused(f"range {step}", f"{listed}, counted from 0, and none with the number {index}")
            if isinstance(entries[index], Template):
                self.needs(cap, ENV, step - 1)
            at = self.reduced(cap, entries[index])
        return at

    def target(self, slots, call):
        kinds, rights = ASKS[call.verb]
        step = len(call.path) - 1
        cap = self.capability(self.walk(slots, call.path), step)
        of = self.objects[cap.name].of
        fits = {"general": of in (DATA, UNIVERSAL) or of > LNS, "listed": of in (UNIVERSAL, PROCEDURE) or of > LNS}
        if not fits.get(kinds, kinds in KERNEL_TYPES and of == KERNEL_TYPES.index(kinds)):
            told = f"{self.called(cap.name)} at step {step} is of the type {self.called(of)}"
            raise Refused(f"wrongtype {step}", f"{told}, which the call is not for")
        self.needs(cap, rights_of(rights), step)
        return cap

    def template(self, slots, path, kind):
        step, found = len(path) - 1, self.walk(slots, path)
        if found is None:
            raise Refused(f"empty {step}", f"nothing stands at step {step}")
        if not isinstance(found, Template) or found.kind != kind:
            raise Refused(f"badtemplate {step}", f"at step {step} stands {self.told(found)}, where a template to {kind} is needed")
        return found

    def below(self, index, things, step, what):
        if index >= len(things):
            raise Refused(f"range {step}", f"step {step} is the number {index}; there are {len(things)} {what}, counted from 0")

    def carried(self, entry, step):
        """What a store or an append takes: a template, or a capability with ENV."""
        if entry is None:
            raise Refused(f"empty {step}", f"nothing stands in the slot at step {step}")
        if isinstance(entry, Cap):
            self.needs(entry, ENV, step)
        return entry

    def merged(self, entry, template, step):
        cap = self.capability(entry, step)
        of = self.objects[cap.name].of
        if template.of is not None and template.of != of:
            told = f"{self.called(cap.name)} at step {step} is of the type {self.called(of)}"
            raise Refused(f"wrongtype {step}", f"{told}, and the template of {self.called(template.of)}")
        self.needs(cap, template.check, step)
        gives = 0 if template.of is None else template.give & ~SPECIAL
        return Cap(cap.name, gives | template.give & cap.rights)

    def room(self):
        """Room for one object more: where the table is full, what is not rooted goes first. (Objects that nothing names stand
        here until then, and by the rules they are gone before. No reply shows the difference: they are not rooted.)"""
        if len(self.objects) < OBJECTS:
            return
        named = [e for i in self.incarnations.values() for e in i.slots] + [Cap(p.on, 0) for p in self.processes if p.state == "waiting"]
        reached, more = set(), [*range(self.first_made), *names_in(named)]
        while more:
            name = more.pop()
            if name not in reached:
                reached.add(name)
                more += [self.objects[name].of, *names_in(self.objects[name].entries)]
        self.objects = {name: o for name, o in self.objects.items() if name in reached}
        if len(self.objects) >= OBJECTS:
            raise Refused("full objects", f"{OBJECTS} objects stand, and all of them are reached")

    def added(self, made, rights):
        name, self.next_name = self.next_name, self.next_name + 1
        self.objects[name] = made
        return Cap(name, rights)

    # Steps.

    def step(self, cpu):
        """The line of a processor's step as four texts (process, incarnation, event, reply), and the reason of a refusal; or None."""
        if self.events >= self.limit:
            return None
        proc = next((n for n, p in enumerate(self.processes) if p.state == "running" and p.on == cpu), None)
        if proc is None and not self.ready:
            return None
        self.events += 1
        if proc is None:
            proc = self.ready.pop(0)
            self.processes[proc].state, self.processes[proc].on = "running", cpu
            return str(proc), str(self.processes[proc].current), "dispatch", "done", None
        p = self.processes[proc]
        inc, call = p.current, self.next_call(p.frames[-1])
        if call is None:
            self.ended(proc)
            return str(proc), str(inc), "halt", "done", None
        reply, why = "done", None
        frame = p.frames[-1]
        at_end = frame.at >= len(self.codes[frame.code])
        try:
            reply = getattr(self, f"do_{call.verb}")(proc, self.incarnations[inc].slots, call) or "done"
        except Refused as refused:
            reply, why = refused.reply, refused.why
        frame.at += 0 if at_end else 1
        frame.refused = why is not None
        if reply.startswith("word "):
            frame.regs[call.reg] = int(reply[5:])
        return str(proc), str(inc), call.text, reply, why

    def next_call(self, frame):
        """Runs local instructions up to the next kernel call; None is a halt."""
        code, regs = self.codes[frame.code], frame.regs
        worth = lambda op: regs[int(op[1])] if op[0] == "r" else int(op)
        for _ in range(LOCAL_STEPS + 1):
            if frame.at >= len(code):
                return Call(["return"], regs)
            verb, *ops = code[frame.at]
            if verb not in ("set", "add", "goto", "ifeq", "iflt", "ifdenied"):
                return Call(code[frame.at], regs)
            if verb in ("set", "add"):
                here = int(ops[0][1])
                regs[here] = (worth(ops[1]) + (regs[here] if verb == "add" else 0)) % WORD
            jumps = {"goto": lambda: True, "ifdenied": lambda: frame.refused, "ifeq": lambda: worth(ops[0]) == worth(ops[1]),
                     "iflt": lambda: worth(ops[0]) < worth(ops[1])}.get(verb, lambda: False)()
            frame.at = ops[-1] if jumps else frame.at + 1
        return None

    def ended(self, proc):
        p = self.processes[proc]
        self.incarnations = {n: i for n, i in self.incarnations.items() if i.proc != proc}
        p.state, p.on, p.frames = "ended", None, []

    def end_word(self):
        states = [p.state for p in self.processes]
        if all(state == "ended" for state in states):
            return "done"
        if not {"ready", "running"} & set(states):
            return "stuck"
        return "limit" if self.events >= self.limit else None

    # The calls.

    def do_getdata(self, _proc, slots, call):
        words = self.objects[self.target(slots, call).name].words
        self.below(call.at, words, len(call.path), "words")
        return f"word {words[call.at]}"

    def do_putdata(self, _proc, slots, call):
        words = self.objects[self.target(slots, call).name].words
        self.below(call.at, words, len(call.path), "words")
        words[call.at] = call.word

    def do_adddata(self, _proc, slots, call):
        words = self.objects[self.target(slots, call).name].words
        if len(words) >= WORDS:
            raise Refused("full words", f"the object has {WORDS} words")
        words.append(call.word)

    def do_length(self, _proc, slots, call):
        return f"word {len(self.objects[self.target(slots, call).name].words)}"

    def do_load(self, _proc, slots, call):
        found = self.walk(slots, call.path)
        if found is None:
            raise Refused(f"empty {len(call.path) - 1}", f"nothing stands at step {len(call.path) - 1}")
        slots[call.slots[0]] = found

    def do_store(self, _proc, slots, call):
        entries = self.objects[self.target(slots, call).name].entries
        self.below(call.at, entries, len(call.path), "entries")
        entries[call.at] = self.carried(slots[call.slots[0]], len(call.path) + 1)

    def do_append(self, _proc, slots, call):
        entries = self.objects[self.target(slots, call).name].entries
        taken = self.carried(slots[call.slots[0]], len(call.path))
        if len(entries) >= ENTRIES:
            raise Refused("full entries", f"the list has {ENTRIES} entries")
        entries.append(taken)

    def do_erase(self, _proc, slots, call):
        entries = self.objects[self.target(slots, call).name].entries
        self.below(call.at, entries, len(call.path), "entries")
        entries[call.at] = None

    def do_drop(self, _proc, slots, call):
        slots[call.slots[0]] = None

    def do_restrict(self, _proc, slots, call):
        cap = self.capability(slots[call.slots[0]], 0)
        slots[call.slots[0]] = Cap(cap.name, cap.rights & call.rights[0])

    def do_look(self, _proc, slots, call):
        found = self.walk(slots, call.path)
        if isinstance(found, Cap):
            return f"word {2**24 + found.rights}"
        return "word 0" if found is None else f"word {2**25 + (2**24 if found.kind == 'create' else 0) + found.give}"

    def do_template(self, _proc, slots, call):
        of = self.target(slots, call).name
        check, give = (call.rights if call.kind == "amplify" else [0, *call.rights])
        slots[call.slots[0]] = Template(call.kind, of, check, give)

    def do_create(self, _proc, slots, call):
        by = self.template(slots, call.path, "create")
        if by.of in (PROCEDURE, PROCESS, LNS):
            raise Refused(f"wrongtype {len(call.path) - 1}", f"no call makes objects of {self.called(by.of)}")
        self.room()
        slots[call.slots[0]] = self.added(Object(by.of), by.give)

    def do_merge(self, _proc, slots, call):
        template = self.template(slots, call.path, "amplify")
        slots[call.slots[1]] = self.merged(slots[call.slots[0]], template, len(call.path))

    def do_copy(self, _proc, slots, call):
        cap = self.target(slots, call)
        kept = [self.copied(cap, entry) for entry in self.objects[cap.name].entries]
        old = self.objects[cap.name]
        self.room()
        slots[call.slots[0]] = self.added(Object(old.of, list(old.words), kept), cap.rights)

    def copied(self, cap, entry):
        if isinstance(entry, Template):
            return entry if cap.rights & ENV else None
        less = self.reduced(cap, entry)
        return less if less and less.rights & ENV else None

    def do_call(self, proc, slots, call):
        cap, p = self.target(slots, call), self.processes[proc]
        procedure, (*args, into) = self.objects[cap.name], call.slots
        if len(args) != len(procedure.params):
            raise Refused("count", f"{self.called(cap.name)} has {len(procedure.params)} parameters, and the call {len(args)} arguments")
        made = [self.merged(slots[arg], template, len(call.path) + n) for n, (arg, template) in enumerate(zip(args, procedure.params))]
        if len(made) + len(procedure.entries) > SLOTS:
            raise Refused("full slots", f"{len(made)} parameters and {len(procedure.entries)} entries pass {SLOTS} slots")
        if len(p.frames) >= DEPTH:
            raise Refused("deep", f"the process has {DEPTH} incarnations")
        confined = not cap.rights & UNCONF
        lost = MODIFY | UNCONF if confined else 0
        made += [Cap(e.name, e.rights & ~lost) if isinstance(e, Cap) else e for e in procedure.entries]
        self.incarnations[self.next_inc] = Incarnation(proc, made + [None] * (SLOTS - len(made)), p.current, into, confined)
        p.current, self.next_inc = self.next_inc, self.next_inc + 1
        p.frames.append(Frame(procedure.code))

    def do_return(self, proc, slots, call):
        p = self.processes[proc]
        given = None
        if call.slots:
            given = self.capability(slots[call.slots[0]], 0)
            self.needs(given, ENV, 0)
        gone = self.incarnations.pop(p.current)
        if gone.caller is None:
            self.ended(proc)
            return
        p.current = gone.caller
        p.frames.pop()
        if given:
            self.incarnations[gone.caller].slots[gone.into] = given

    def do_p(self, proc, slots, call):
        cap, p = self.target(slots, call), self.processes[proc]
        semaphore = self.objects[cap.name]
        if semaphore.count:
            semaphore.count -= 1
            return None
        semaphore.waiters.append(proc)
        p.state, p.on = "waiting", cap.name
        return "waits"

    def do_v(self, _proc, slots, call):
        semaphore = self.objects[self.target(slots, call).name]
        if semaphore.waiters:
            woken = semaphore.waiters.pop(0)
            self.processes[woken].state, self.processes[woken].on = "ready", None
            self.ready.append(woken)
        elif semaphore.count >= TOKENS:
            raise Refused("full tokens", f"the semaphore has {TOKENS} tokens")
        else:
            semaphore.count += 1

    def do_yield(self, proc, _slots, _call):
        self.processes[proc].state, self.processes[proc].on = "ready", None
        self.ready.append(proc)


class Call:
    """A kernel call with its numbers resolved, from the pieces of an instruction; `text` is that of an audit line."""

    def __init__(self, pieces, regs):
        self.verb, ops = pieces[0], list(pieces[1:])
        worth = lambda op: regs[int(op[1])] if op[0] == "r" else int(op)
        shown, self.path, self.rights, self.kind, self.reg, self.at, self.word = [self.verb], [], [], None, None, None, None
        if self.verb not in ("drop", "restrict", "return", "yield"):
            self.path = [min(worth(index), 65_535) for index in ops.pop(0).split(".")]
            shown.append(".".join(map(str, self.path)))
        if self.verb in ("getdata", "length", "look"):
            self.reg = int(ops.pop()[1])
        if self.verb in ("getdata", "putdata", "store", "erase"):
            self.at = worth(ops.pop(0))
            shown.append(str(self.at))
        if self.verb in ("putdata", "adddata"):
            self.word = worth(ops.pop(0))
            shown.append(str(self.word))
        if self.verb == "template":
            self.kind = ops[0]
        self.rights = [rights_of(op) for op in ops if op[0].isupper() or op == "-"]
        self.slots = [int(op) for op in ops if op.isdigit()]
        self.text = " ".join([*shown, *ops])


def assembled(body):
    """The instructions of a code, with jumps to their numbers."""
    labels, steps = {}, []
    for pieces in body:
        if pieces[0] == "label":
            labels[pieces[1]] = len(steps)
        else:
            steps.append(pieces)
    jumps = ("goto", "ifeq", "iflt", "ifdenied")
    return [[*step[:-1], labels[step[-1]]] if step[0] in jumps else step for step in steps]


def names_in(entries):
    """The objects that entries name."""
    for entry in entries:
        if isinstance(entry, Cap):
            yield entry.name
        elif entry is not None and entry.of is not None:
            yield entry.of


def run(lines):
    """The lines of a world's run on processor 0, each with the reason of a refusal, and then the end word."""
    world = World(lines)
    while (made := world.step(0)) is not None:
        *texts, why = made
        yield f"0 {texts[0]} {texts[1]} {texts[2]} -> {texts[3]}", why
    yield f"end {world.end_word()}", None
