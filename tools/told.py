"""What `confine`, `trace N` and `back K` tell of a history, and its marks, worked out from docs/RULES.md word by word, with no thought of time.

It is not proved, and no verdict rests on it: tests/told compares the built program with it. It stands on tools/rules.py, whose steps
it remembers with the state at each moment.
"""
import copy
from dataclasses import dataclass
from functools import cached_property

import rules
from rules import ENV, LNS, MODIFY, PROCEDURE, SEMAPHORE, UNCONF, UNIVERSAL, Cap, Template, names_in, spelled

CHANGING = ("putdata", "adddata", "store", "append", "erase", "v")


class State(rules.World):
    """A state whose objects vanish as the rules have it, and whose incarnations know their procedures."""

    def __init__(self, lines):
        super().__init__(lines)
        self.call = None
        self.procedures = {}

    def next_call(self, frame):
        self.call = super().next_call(frame)
        return self.call

    def do_call(self, proc, slots, call):
        name = self.target(slots, call).name
        super().do_call(proc, slots, call)
        self.procedures[self.next_inc - 1] = name

    def vanish(self):
        """Leaves the greatest supported set."""
        outside = {name for i in self.incarnations.values() for name in names_in(i.slots)}
        outside |= {p.on for p in self.processes if p.state == "waiting"}
        while True:
            named = outside | {name for o in self.objects.values() for name in (o.of, *names_in(o.entries))}
            kept = {name: o for name, o in self.objects.items() if name < self.first_made or name in named}
            if len(kept) == len(self.objects):
                return
            self.objects = kept


@dataclass
class Line:
    """A line: who made it, its call if it is one, and its reply."""
    cpu: int
    proc: int
    inc: int
    text: str
    reply: str
    call: object

    @property
    def done(self):
        return self.call is not None and (self.reply in ("done", "waits") or self.reply.startswith("word "))


class History:
    """The lines of a history and the state at each moment, by a list of processors that is followed as far as it goes."""

    def __init__(self, script, cpus):
        state = State(script)
        self.lines, self.states = [], [copy.deepcopy(state)]
        for cpu in cpus:
            state.call = None
            made = state.step(cpu)
            if made is None:
                continue
            proc, inc, text, reply, why = made
            if why is None and text != "dispatch":
                state.vanish()
            self.lines.append(Line(cpu, int(proc), int(inc), text, reply, None if text in ("dispatch", "halt") else state.call))
            self.states.append(copy.deepcopy(state))
        self.end = state.end_word()
        self.callers = {}
        for state in self.states:
            self.callers.update({n: i.caller for n, i in state.incarnations.items()})

    def record(self, script):
        told = (f"{l.cpu} {l.proc} {l.inc} {l.text} -> {l.reply}" for l in self.lines)
        return "".join(f"{line}\n" for line in [*script, "record", *told, f"end {self.end}"])

    # Who is under whom, and who made and changed what.

    def is_under(self, inc, top):
        while inc is not None and inc != top:
            inc = self.callers[inc]
        return inc == top

    def changed(self, at):
        """The object that line `at` changes, counted from 0, or None."""
        line, before = self.lines[at], self.states[at]
        if line.done and line.call.verb in (*CHANGING, "p"):
            return before.target(before.incarnations[line.inc].slots, line.call).name
        return None

    def makers(self):
        """Who made each object that was made."""
        return {self.states[at].next_name: line.inc for at, line in enumerate(self.lines)
                if line.done and line.call.verb in ("create", "copy")}

    def confined(self):
        """Each confined incarnation, with the moment at which it began and its number of parameters."""
        for at, line in enumerate(self.lines):
            new = self.states[at].next_inc
            if line.done and line.call.verb == "call" and self.states[at + 1].incarnations[new].confined:
                yield new, at + 1, len(line.call.slots) - 1

    # Reaches: each way, hop by hop, the least way to each place that it can come to.

    def hops(self, made, there, moment):
        """Each hop from there by this moment: its key, and where it leads."""
        name, modify, unconf, from_moment = there
        for m in range(from_moment, moment + 1):
            thing = self.states[m].objects.get(name)
            for index, entry in enumerate(thing.entries if thing else []):
                if isinstance(entry, Cap):
                    if unconf:
                        yield (m, index, 0), (entry.name, bool(entry.rights & MODIFY), bool(entry.rights & UNCONF), m)
                    if modify and entry.name in made:
                        yield (m, index, 1), (entry.name, True, True, m)

    def least_reach(self, call, moment, wanted, made):
        """The least reach of an object by a moment: a parameter and hops; or None."""
        inc, begun, count = call
        here = {}
        for param, entry in enumerate(self.states[begun].incarnations[inc].slots[:count]):
            if isinstance(entry, Cap):
                there = (entry.name, bool(entry.rights & MODIFY), bool(entry.rights & UNCONF), begun)
                here.setdefault(there, (param,))
        seen = set(here)
        while here:
            found = [key for (name, modify, _, _), key in here.items() if name == wanted and modify]
            if found:
                return min(found)
            onward = {}
            for there, key in here.items():
                for hop, to in self.hops(made, there, moment):
                    if to not in seen:
                        onward[to] = min(onward.get(to, (*key, hop)), (*key, hop))
            here = onward
            seen |= set(here)
        return None

    def changes(self):
        """The text that `confine` writes."""
        calls, makers, out = list(self.confined()), self.makers(), []
        for at, line in enumerate(self.lines):
            name = self.changed(at)
            for call in calls if name is not None else []:
                if call[1] <= at and self.is_under(line.inc, call[0]):
                    made = {n for n, by in makers.items() if self.is_under(by, call[0])}
                    if name in made:
                        reason = "made"
                    else:
                        param, *hops = self.least_reach(call, at, name, made)
                        reason = " ".join([f"param {param}", *(f"{('entry', 'handed')[kind]} {index} {m}" for m, index, kind in hops)])
                    out.append(f"{at + 1} {call[0]} {name} {reason}")
        return "".join(f"{line}\n" for line in [*out, f"changes {len(out)}"])

    # Where what a line used came from. A place is an incarnation's slot or an object's entry.

    def standing(self, moment, place):
        """What stands at a place, or None."""
        state, (kind, owner, index) = self.states[moment], place
        things = state.incarnations if kind == "slot" else state.objects
        if owner not in things:
            return None
        held = things[owner].slots if kind == "slot" else things[owner].entries
        return held[index] if index < len(held) else None

    def path(self, at):
        """The places of the path of line `at`, as far as capabilities lead."""
        line, places = self.lines[at], []
        for step, index in enumerate(line.call.path):
            if not step:
                places.append(("slot", line.inc, index))
                continue
            held = self.standing(at, places[-1])
            if not isinstance(held, Cap):
                break
            places.append(("entry", held.name, index))
        return places

    def carried(self, at):
        """The slots that line `at` carries, each with its step."""
        line = self.lines[at]
        call, steps = line.call, len(line.call.path)
        taken = {"store": call.slots[:1], "append": call.slots[:1], "merge": call.slots[:1], "call": call.slots[:-1],
                 "restrict": call.slots[:1], "return": call.slots[:1]}.get(call.verb, [])
        first = steps + 1 if call.verb == "store" else steps
        return [(first + n, ("slot", line.inc, slot)) for n, slot in enumerate(taken)]

    def refused_at(self, at):
        """The step of the refusal of line `at`, if it has one, and its place in the order of refusals; None where it is none."""
        line = self.lines[at]
        word, *more = line.reply.split()
        call, steps = line.call, len(line.call.path)
        if line.done:
            return None
        if word in ("count", "full", "deep"):
            return None, 6 if word == "count" else 8
        step = int(more[0])
        if step < steps:
            return step, {"wrongtype": 3, "denied": 4 if step == steps - 1 else 2}.get(word, 2)
        if word == "range":
            return step, 5 if call.verb in ("getdata", "putdata", "store", "erase") and step == steps else 1
        return step, 7

    def used(self, at):
        """Each step whose place line `at` used, with the place."""
        line = self.lines[at]
        if line.call is None or line.call.verb == "drop":
            return []
        refusal = self.refused_at(at)
        looked = [(step, place, 2) for step, place in enumerate(self.path(at))] + [(step, place, 7) for step, place in self.carried(at)]
        return [(step, place) for step, place, order in looked if self.standing(at, place) is not None
                and not (refusal and (refusal[1] < order or (refusal[0] is not None and refusal[0] < step)))]

    def written(self, at):
        """Each place that line `at` writes with a capability or a template, and its origin: a place, or None where it is a making."""
        line, before, after = self.lines[at], self.states[at], self.states[at + 1]
        if not line.done:
            return {}
        call, verb, mine = line.call, line.call.verb, lambda slot: ("slot", line.inc, slot)
        slots = before.incarnations[line.inc].slots
        if verb == "load":
            return {mine(call.slots[0]): self.path(at)[-1]}
        if verb == "store":
            return {("entry", before.target(slots, call).name, call.at): mine(call.slots[0])}
        if verb == "append":
            name = before.target(slots, call).name
            return {("entry", name, len(before.objects[name].entries)): mine(call.slots[0])}
        if verb == "restrict":
            return {mine(call.slots[0]): mine(call.slots[0])}
        if verb == "merge":
            return {mine(call.slots[1]): mine(call.slots[0])}
        if verb in ("create", "template"):
            return {mine(call.slots[-1]): None}
        if verb == "copy":
            old, new = before.target(slots, call).name, before.next_name
            copied = {("entry", new, n): ("entry", old, n) for n, e in enumerate(after.objects[new].entries) if e is not None}
            return {**copied, mine(call.slots[0]): None}
        if verb == "call":
            name, new, args = before.target(slots, call).name, before.next_inc, call.slots[:-1]
            inherited = {("slot", new, len(args) + n): ("entry", name, n) for n in range(len(before.objects[name].entries))}
            return {**{("slot", new, n): mine(slot) for n, slot in enumerate(args)}, **inherited}
        if verb == "return" and call.slots and before.incarnations[line.inc].caller is not None:
            gone = before.incarnations[line.inc]
            return {("slot", gone.caller, gone.into): mine(call.slots[0])}
        return {}

    @cached_property
    def writes(self):
        """What each line writes: places with their origins."""
        return [self.written(at) for at in range(len(self.lines))]

    @cached_property
    def writers(self):
        """The lines that write each place, from the first on."""
        found = {}
        for at, writes in enumerate(self.writes):
            for place in writes:
                found.setdefault(place, []).append(at)
        return found

    def writer(self, place, moment):
        """The last line by this moment that wrote a place, or None."""
        return next((at for at in reversed(self.writers.get(place, [])) if at < moment), None)

    def links(self, place, moment):
        """The links of the chain of a place at a moment, from the latest back: the line, the place, and its origin, which is None at a making."""
        while place is not None and (at := self.writer(place, moment)) is not None:
            origin = self.writes[at][place]
            yield at, place, origin
            place, moment = origin, at

    def chain(self, place, moment):
        """The texts of the links of a place at a moment, from the latest back, and of where it ends."""
        for at, _, place in self.links(place, moment):
            yield f"made {at + 1}" if place is None else f"{at + 1} {self.lines[at].call.verb} {self.told(at, place)}"
        if place is not None:
            yield "opening"

    def told(self, moment, place):
        return f"{place[0]} {place[1]} {place[2]} {content(self.standing(moment, place))}"

    def trace(self, number):
        """The text that `trace` writes of a line, counted from 1."""
        used, out = self.used(number - 1) if number <= len(self.lines) else [], []
        for step, place in used:
            out += [f"step {step} {self.told(number - 1, place)}", *self.chain(place, number - 1)]
        return "".join(f"{line}\n" for line in [*out, f"steps {len(used)}"])

    # Marks: what descends from a parameter without ENV.

    def local_params(self):
        """Each parameter without ENV: its slot, and the moment at which its call began."""
        for at, line in enumerate(self.lines):
            if line.done and line.call.verb == "call":
                new, count = self.states[at].next_inc, len(line.call.slots) - 1
                for slot, cap in enumerate(self.states[at + 1].incarnations[new].slots[:count]):
                    if not cap.rights & ENV:
                        yield ("slot", new, slot), at + 1

    def is_marked_by(self, at, marks, origin):
        """Whether line `at`, before which these places are marked, marks a place that it writes, which has this origin."""
        verb = self.lines[at].call.verb
        if verb in ("load", "copy"):
            return origin in marks or any(place in marks for place in self.path(at))
        if verb == "call":
            return origin in marks and origin[0] == "slot"
        return origin in marks

    def marks(self, slot, begun):
        """Each moment from a call's beginning on, with the places that are marked then for the parameter in this slot."""
        marks = {slot}
        yield begun, marks
        for at in range(begun, len(self.lines)):
            writes = self.writes[at]
            marked = {place for place, origin in writes.items() if marks and self.is_marked_by(at, marks, origin)}
            marks = {place for place in (marks - writes.keys()) | marked if self.standing(at + 1, place) is not None}
            yield at + 1, marks

    # A state as text.

    def back(self, count):
        """The text that `back` writes: the state before the last lines, so many."""
        moment = max(0, len(self.lines) - count)
        return "".join(f"{line}\n" for line in [f"moment {moment}", *state_lines(self.states[moment])])


def content(entry):
    """An entry, with names as numbers."""
    if isinstance(entry, Cap):
        return f"cap {entry.name} {spelled(entry.rights)}"
    of = "any" if entry.of is None else entry.of
    return f"create {of} {spelled(entry.give)}" if entry.kind == "create" else f"amplify {of} {spelled(entry.check)} {spelled(entry.give)}"


def object_lines(name, thing):
    yield f"object {name} {thing.of}"
    if thing.words:
        yield " ".join(["words", *map(str, thing.words)])
    if thing.of in (UNIVERSAL, PROCEDURE) or thing.of > LNS:
        yield f"entries {len(thing.entries)}"
        yield from (f"entry {n} {content(entry)}" for n, entry in enumerate(thing.entries) if entry is not None)
    if thing.of == SEMAPHORE:
        yield f"count {thing.count}"
        if thing.waiters:
            yield " ".join(["waiters", *map(str, thing.waiters)])
    if thing.of == PROCEDURE:
        yield f"code {thing.code}"


def incarnation_lines(number, inc, procedure):
    confined = "confined" if inc.confined else "open"
    yield f"incarnation {number} {inc.proc} " + ("base" if inc.caller is None else f"by {inc.caller} into {inc.into} of {procedure} {confined}")
    yield from (f"slot {n} {content(entry)}" for n, entry in enumerate(inc.slots) if entry is not None)


def state_lines(state):
    for name in sorted(state.objects):
        if name > LNS:
            yield from object_lines(name, state.objects[name])
    for number in sorted(state.incarnations):
        yield from incarnation_lines(number, state.incarnations[number], state.procedures.get(number))
    for number, p in enumerate(state.processes):
        yield f"process {number} {p.state}" + (f" {p.on}" if p.state in ("running", "waiting") else "")
    if state.ready:
        yield " ".join(["ready", *map(str, state.ready)])
    yield f"next {state.next_name} {state.next_inc}"
