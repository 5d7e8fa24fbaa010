"""The static bound of docs/RULES.md as a plain program: the eight rules, used again and again until nothing comes.

It is not proved, and no verdict rests on it: tests/bounds compares the proved bound with it. It reads scripts as tools/rules.py does.
"""
import rules
from rules import ALL, BIT, DATA, ENV, LNS, LOAD, MODIFY, PROCEDURE, SEMAPHORE, SPECIAL, TYPE, UNCONF, UNIVERSAL, Cap, Template

STORING, COPY, A0 = BIT["STORE"] | BIT["APPEND"], BIT["COPY"], BIT["A0"]
WORD_CHANGES, LIST_CHANGES, COUNT_CHANGES = BIT["PUTDATA"] | BIT["ADDDATA"], STORING | BIT["KILL"], A0 | BIT["A1"]


def made(process):
    """What stands for all that a process makes."""
    return ("made", process)


def reduced(by, rights):
    """What is obtained through a capability with the rights `by`."""
    return rights & ~(0 if by & UNCONF else MODIFY | UNCONF) & ~(0 if by & ENV else ENV)


class Holders:
    """What holders have: for each the rights by thing, and the templates."""

    def __init__(self, world, left_out=()):
        self.world, self.left_out = world, left_out
        self.processes = range(len(world.processes))
        holders = [*(("process", p) for p in self.processes), *(made(p) for p in self.processes), *range(world.first_made)]
        self.had, self.forms, self.grown = {h: {} for h in holders}, {h: set() for h in holders}, True
        if "opening" not in left_out:
            for process in self.processes:
                self.open(("process", process), world.incarnations[process].slots)
            for name in range(world.first_made):
                self.open(name, world.objects[name].entries)

    def open(self, holder, entries):
        for entry in entries:
            if isinstance(entry, Cap):
                self.give(holder, entry.name, entry.rights)
            elif isinstance(entry, Template) and entry.kind == "amplify" and entry.of is not None:
                self.form(holder, (entry.of, entry.check, entry.give))

    def give(self, holder, thing, rights):
        old = self.had[holder].get(thing)
        new = ALL if isinstance(thing, tuple) else rights | (old or 0)
        if new != old:
            self.had[holder][thing], self.grown = new, True

    def form(self, holder, form):
        if form not in self.forms[holder]:
            self.forms[holder].add(form)
            self.grown = True

    def give_forms(self, holder, other):
        for form in list(self.forms[other]):
            self.form(holder, form)

    def of(self, thing):
        return None if isinstance(thing, tuple) else self.world.objects[thing].of

    def is_general(self, thing):
        return self.of(thing) in (None, DATA, UNIVERSAL) or self.of(thing) > LNS

    def is_listed(self, thing):
        return self.of(thing) in (None, UNIVERSAL, PROCEDURE) or self.of(thing) > LNS

    # The rules for a process and a thing for which it has these rights.

    def load(self, process, x, by):
        if by & LOAD:
            for y, rights in list(self.had[x].items()):
                self.give(process, y, reduced(by, rights))
            if by & ENV:
                self.give_forms(process, x)

    def store(self, process, x, by):
        if self.is_listed(x) and by & MODIFY and by & STORING:
            for y, rights in list(self.had[process].items()):
                if rights & ENV:
                    self.give(x, y, rights)
            self.give_forms(x, process)

    def copy(self, process, x, by):
        if self.is_general(x) and by & COPY:
            for y, rights in list(self.had[x].items()):
                if reduced(by, rights) & ENV:
                    self.give(made(process[1]), y, reduced(by, rights))
            if by & ENV:
                self.give_forms(made(process[1]), x)

    def enter(self, process, x, by):
        if self.of(x) == PROCEDURE and by & A0:
            for y, rights in list(self.had[x].items()):
                self.give(process, y, reduced(by | ENV, rights))
            self.give_forms(process, x)
            for param in self.world.objects[x].params:
                if param.of is not None:
                    self.form(process, (param.of, param.check, param.give))

    def merge(self, process, x, by):
        for of, check, give in list(self.forms[process]):
            if of == self.of(x) and not check & ~by:
                self.give(process, x, give & ~SPECIAL | give & by)

    def make(self, process, x, by):
        if self.of(x) == TYPE and not (ENV | A0) & ~by:
            self.form(process, (x, 0, ALL))

    def close(self):
        """Uses the rules until nothing comes."""
        while self.grown:
            self.grown = False
            for p in self.processes:
                if "made" not in self.left_out:
                    self.give(("process", p), made(p), ALL)
                for x, _ in list(self.had["process", p].items()):
                    for rule in ("load", "store", "copy", "enter", "merge", "make"):
                        if rule not in self.left_out:
                            getattr(self, rule)(("process", p), x, self.had["process", p][x])
        return self


def changes(of, rights):
    """Whether these rights change an object of a type."""
    general, listed = of in (DATA, UNIVERSAL) or of > LNS, of in (UNIVERSAL, PROCEDURE) or of > LNS
    some = general and rights & WORD_CHANGES or listed and rights & LIST_CHANGES or of == SEMAPHORE and rights & COUNT_CHANGES
    return bool(rights & MODIFY and some)


def bound(lines, left_out=()):
    """The pairs of a process and an object of the opening that it may ever change, in the order of `hydra bound`."""
    holders = Holders(rules.World(lines), left_out).close()
    return [(p, x) for p in holders.processes
            for x, rights in sorted((x, r) for x, r in holders.had["process", p].items() if not isinstance(x, tuple))
            if changes(holders.of(x), rights)]
