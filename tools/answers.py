#!/usr/bin/env python3
"""Turns each proofs/F/Proof.antt of a crate, the old form, into Answers.antt and Invariants.antt, the present form.

usage: answers.py [--names NAMES.JSON] [--keep] CRATE..

Run it at the top of the repository, once the crates below CRATE prove and the crate's own source compiles: it asks
`rt check --generated DIR --old-names` for the old and new names of goals, steps and places (or takes them from --names),
answers each goal whose old answer was more than `search rules`, and deletes Proof.antt (--keep: leaves it as Proof.old).
What it could not turn stays as it was, after a line `-- look: ..` that it also prints. A file with no `tie.spec`, as a
recursive function's in +f, it leaves. Python 3.8 or later.
"""

import json
import os
import re
import subprocess
import sys
import tempfile

W = r"[^\s(){}.;,@\"«»\[\]\\λ]+"
PATH = re.compile(r"--[^\n]*|\"(?:[^\"\\]|\\.)*\"|%s(?:\.%s)*" % (W, W))
# An answer that Rattle tries by itself.
FOUND = re.compile(r"search rules|tt|omega arith|\(search rules\)|cc|\w+\.match\.keys\d+")
# Rattle's words of several parts, in their old spelling.
OWN = {it.replace("_", "-"): it for it in "type_inv well_formed yielded_by view_is loan_name len_below len_at_least".split()}
START = {"args", "lifetimes", "requires", "ranges", "utf8", "captures"}


def flat(name):
    """The name in one spelling, with a dash for each underscore."""
    return name.replace("_", "-")


def read(path):
    with open(path, encoding="utf-8") as it:
        return it.read()


def write(path, text):
    with open(path, "w", encoding="utf-8") as it:
        it.write(text)


class Block:
    """A declaration of the old file: its comment, signature, `unfolding` line and equations."""

    def __init__(self, lines):
        at = 0
        while lines[at].startswith("--"):
            at += 1
        self.comment = lines[:at]
        self.lines = lines[at:]
        head = re.match(r"((?:abbrev |unfoldable |pub )*)(\S+) :", self.lines[0])
        self.marks, self.name = (head[1], head[2]) if head else ("", None)
        self.sig, self.unfolding, self.equations = "", [], []
        if not self.name:
            return
        # Logical lines: one that is not indented begins another.
        logical = []
        for line in self.lines:
            if line[:1] in (" ", "\t") and logical:
                logical[-1] += "\n" + line
            else:
                logical.append(line)
        self.sig = logical[0][len(head[0]):].strip()
        for it in logical[1:]:
            if it.startswith("unfolding "):
                self.unfolding.append(it)
            else:
                self.equations.append(it)

    def sides(self):
        """The arguments and the body of the single equation."""
        left, _, right = self.equations[0].partition(" =")
        return left.split()[1:], right.strip("\n ") if "\n" not in right else right


def parsed(text):
    """The comment at the head, the `use` lines and the blocks."""
    uses, parts, current = [], [], []
    for line in text.split("\n"):
        if line.startswith(("use ", "pub use ")):
            if current and all(it.startswith("--") for it in current):
                parts.append(("head", current))
                current = []
            uses.append(line)
        elif not line.strip():
            if current:
                parts.append(("block", current))
            current = []
        elif line[:1] not in (" ", "\t") and current and not starts_within(line, current):
            parts.append(("block", current))
            current = [line]
        else:
            current.append(line)
    if current:
        parts.append(("block", current))
    head = [it for kind, it in parts if kind == "head"]
    blocks, pending = [], []
    for kind, it in parts:
        if kind == "head":
            continue
        if all(line.startswith("--") for line in it):
            pending += it
            continue
        blocks.append(Block(pending + it))
        pending = []
    return (head[0] if head else []), uses, blocks


def starts_within(line, current):
    """Whether the line that is not indented belongs to the declaration that stands above it."""
    if all(it.startswith("--") for it in current):
        return True
    names = [re.match(r"(?:abbrev |unfoldable |pub )*(\S+) :", it) for it in current if not it.startswith("--")]
    name = names[0][1] if names and names[0] else None
    return line.startswith("unfolding ") or (name is not None and re.match(re.escape(name) + r"(\s|$)", line) and " : " not in line.split(" = ")[0])


def atoms(text):
    """The arguments of an application, each a word or one in parentheses."""
    out, depth, start = [], 0, None
    for at, it in enumerate(text):
        if it == "(":
            if depth == 0:
                start = at
            depth += 1
        elif it == ")":
            depth -= 1
            if depth < 0:
                break
            if depth == 0:
                out.append(text[start:at + 1])
                start = None
        elif depth == 0:
            if it.isspace():
                if start is not None:
                    out.append(text[start:at])
                    start = None
            elif start is None:
                start = at
    else:
        at = len(text)
    if depth <= 0 and start is not None and text[start] != "(":
        out.append(text[start:at])
    return out


def misspelled(name):
    """The step that an earlier script took for another word, as is_IsWide for is_wide."""
    return flat(re.sub(r"[A-Z]", lambda it: it[0].lower(), re.sub(r"^is_Is", "is_", name)))


class Function:
    """The names of a function, old and new."""

    def __init__(self, of):
        self.needs, self.asked_at = of["needs"], of["asked_at"]
        self.places, self.typed, self.arms = of["places"], of["typed"], of["arms"]
        self.clauses, self.loops, self.changed = of["clauses"], of["loops"], of["changed"]
        self.asked, self.params = of["asked"], of["params"]
        # Parameters that are patterns had names of Rattle's own.
        self.args = {}
        for old, new in of["args"]:
            found = re.fullmatch(r"\.(args|ranges) \.(\S+)", old)
            if found:
                self.args[found[1], flat(found[2])] = new.split(" .")[1]
        self.at = {}
        for index, it in enumerate(self.places):
            self.at[flat(it[0])] = index
        self.new_places = of.get("places_by_name") or []

    def parent(self, place):
        above = self.places[place][1]
        return None if above is None else self.at[flat(above)]

    def chain(self, place):
        while place is not None:
            yield place
            place = self.parent(place)

    def new_place(self, place):
        return self.new_places[place]


class Turn:
    """Turns the definitions of one file."""

    def __init__(self, function, labels, own):
        self.f, self.labels, self.own = function, labels, own
        self.helpers, self.look, self.wants, self.above = {}, [], set(), set()
        self.branches, self.goals, self.whole, self.source = {}, {}, "", ""

    def resolved(self, place, parts):
        """The place and the rest of a path that begins at a record."""
        parts = list(parts)
        while parts and parts[0] == "before":
            above = self.f.parent(place)
            # The old walk may have had more steps: there is nothing above the start.
            place = place if above is None else above
            parts.pop(0)
        return place, parts

    def field(self, here, place, parts):
        """The new path of a field of the record at `place`, seen from a record at `here` below it."""
        first = parts[0]
        if flat(first) in ("well-formed",):
            return ["well_formed"] + parts[1:]
        if first == "requires":
            return ["requires"] + by_label(self.own, parts[1:])
        if first in START:
            if len(parts) > 1:
                parts = [first, self.f.args.get((first, flat(parts[1])), parts[1])] + parts[2:]
            return parts
        # An arm's names for the value that it matched. Where the old walk had more steps, the record itself is looked through.
        chain = list(self.f.chain(place))
        chain += [it for it in self.f.chain(here) if it not in chain]
        for it in chain:
            arm = self.f.arms[it]
            if arm and first == "match" and parts[1:2] == ["rest"]:
                self.look.append("%s.rest: what no earlier arm took, a name of Rattle's own; try that goal with no answer" % arm[0])
                return [arm[0], arm[0] + "-own"] + parts[1:]
            for name, step, under in arm[2] if arm else []:
                if flat(step) == flat(first) and under and parts[1 : 1 + len(under)] == under:
                    return [arm[0], name] + parts[1 + len(under) :]
        for it in chain:
            old, new = self.f.places[it][2]
            if old and flat(old) in (flat(first), misspelled(first)):
                return self.step(here, it, new, old, parts[1:])
        self.look.append("no step %s at %s" % (first, self.f.places[place][0]))
        return parts

    def step(self, here, place, new, old, rest):
        if rest[:1] == ["given"]:
            for of, by in self.f.typed[here]:
                if flat(by) == flat(old):
                    return ["type_inv", of] + rest[1:]
            # The value was lent or written since: a record above still has the fact.
            for it in self.f.chain(here):
                for of, by in self.f.typed[it]:
                    if flat(by) == flat(old) and self.f.places[it][3]:
                        self.above.add(self.f.new_place(it))
                        return ["(goal.at.%s c).%s" % (self.goal, self.f.new_place(it)), "type_inv", of] + rest[1:]
            self.look.append("%s is of Rattle's own: a fact of .type_inv, an arm's .is, or none" % ".".join(["c", new] + rest))
        arm = self.f.arms[place]
        if arm and rest[:1] and re.match(r"keys\d|rest", rest[0]):
            return [arm[0], arm[0] + "-own"] + rest
        if len(rest) > 1 and rest[0] in ("new", "auto") and rest[1] in "01":
            rest = [rest[0]] + self.parameter(place, rest[1:])
        if rest[:1] and rest[0] in ("ensures", "requires"):
            rest = [rest[0]] + self.clause(place, rest[1:])
        return [new] + [OWN.get(it, it) for it in rest]

    def clause(self, place, rest):
        callee, known = self.f.places[place][3], self.f.clauses[place]
        names = known["fields"] if known else self.labels.get(callee or "", ([], []))[1]
        return by_label(names, rest)

    def text(self, text, places, goal, here):
        """The text with each path from a record turned. `places` gives the place of each variable that is a record."""
        places = dict(places)
        labels, steps, out, at = {}, {}, [], 0
        while True:
            found = PATH.search(text, at)
            if not found:
                out.append(text[at:])
                return "".join(out)
            out.append(text[at:found.start()])
            at = found.end()
            word = found[0]
            if word.startswith(("--", '"')):
                out.append(word)
                continue
            if word == "let":
                bound = re.match(r"\s+(%s)\s+=\s+(%s(?:\.%s)*)\s+in\b\s*" % (W, W, W), text[at:])
                if bound:
                    head, *parts = bound[2].split(".")
                    if head in places:
                        to = self.resolved(places[head], parts)
                        if to and not to[1]:
                            places[bound[1]] = to[0]
                            at += bound.end()
                            continue
                        if to and to[1][-1] in ("ensures", "requires") and len(to[1]) < 3:
                            labels[bound[1]] = self.labels_at(*to)
                        elif to and len(to[1]) == 1 and to[1][0] not in START:
                            at_step = [it for it in self.f.chain(to[0]) if flat(self.f.places[it][2][0]) in (flat(to[1][0]), misspelled(to[1][0]))]
                            steps[bound[1]] = at_step[0] if at_step else None
                else:
                    bound = re.match(r"\s+(%s)\s+=\s+rw\s[^\n]*? at (%s(?:\.%s)*)\s+in\b" % (W, W, W), text[at:])
                    head, *parts = bound[2].split(".") if bound else [""]
                    if head in places and parts and parts[-1] == "ensures":
                        labels[bound[1]] = self.labels_at(*self.resolved(places[head], parts))
                name = re.match(r"\s+%s(?=\s+[=:])" % W, text[at:])
                if name:
                    out.append(word + name[0])
                    at += name.end()
                    continue
                out.append(word)
                continue
            head, *parts = word.split(".")
            if head in places:
                to = self.resolved(places[head], parts)
                if not to:
                    self.look.append("no place " + word)
                    out.append(word)
                elif to[1]:
                    self.goal = goal
                    new = ".".join(self.field(here, to[0], to[1]))
                    new = new if new.startswith("(goal.at.") else "c." + new
                    is_bound = re.search(r"let\s+%s\s+=\s+\Z" % W, text[: found.start()]) and re.match(r"\s+in\b", text[at:])
                    is_bound = is_bound or re.search(r"\sat\s+\Z", text[: found.start()])
                    if to[1][-1] in ("ensures", "requires") and len(to[1]) < 3 and not is_bound:
                        new = as_pairs(new, self.labels_at(*to))
                    # A test of `!x` says now what x is, and not what `not x` is.
                    test = re.fullmatch(r"c\.if-not-([^.]*)\.(true|false)", new)
                    if test and self.is_call(test[1], here):
                        self.wants.update(("Rattle.std.proofs.Common.not", "Rattle.std.proofs.Common.ap"))
                        new = "(ap not %s)" % new
                    out.append(new)
                else:
                    out.append(self.record(to[0], goal, here))
                continue
            if labels.get(head) and len(labels[head]) > 1:
                out.append(".".join([head] + by_label(labels[head], parts)) if parts else as_pairs(head, labels[head]))
                continue
            if steps.get(head) is not None and parts:
                place = steps[head]
                old, new = self.f.places[place][2]
                self.goal = goal
                out.append(".".join([head] + self.step(here, place, new, old, parts)[1:]))
                continue
            if head in self.branches and parts:
                out.append(self.in_branch(here, head, parts))
                continue
            if head == "⊎_elim":
                split = self.split(text[at:], places, goal, here)
                if split:
                    out.append(split[0])
                    at += split[1]
                    continue
            if head in self.goals:
                out.append(".".join([self.goals[head]] + parts))
                continue
            if head in self.helpers and not parts:
                out.append(self.call(head, text[at:], places, goal, here))
                taken = self.taken
                at += taken
                continue
            out.append(word)

    def parameter(self, place, rest):
        """`.new.1.0` and `.auto.1.0` under the callee's parameter, of pairs nested to the right."""
        names = self.f.params.get(self.f.places[place][3]) or []
        ones = next((k for k, it in enumerate(rest) if it != "1"), len(rest))
        if ones < len(rest) and rest[ones] == "0" and ones < len(names):
            return [names[ones]] + rest[ones + 1 :]
        if ones == len(rest) == len(names) - 1:
            return [names[ones]]
        self.look.append("%s of %s: write its parameter" % (".".join(rest), self.f.places[place][2][1]))
        return rest

    def is_call(self, name, here):
        """Whether a test is named after a call's result, or a parameter that is a `bool`."""
        if re.search(r"\b%s: bool\b" % re.escape(name.split("-")[0]), self.source):
            return True
        calls = [self.f.places[it][2][1] for it in self.f.chain(here) if self.f.places[it][3]]
        return any(it == name or it.split("-")[0] == name.split("-")[0] for it in calls)

    def labels_at(self, place, parts):
        """The clauses' names of a path that ends in `ensures` or `requires`."""
        if parts == ["requires"]:
            return self.own
        for it in self.f.chain(place):
            old = self.f.places[it][2][0]
            if old and flat(old) in (flat(parts[0]), misspelled(parts[0])):
                known = self.f.clauses[it]
                return known["fields"] if known else self.labels.get(self.f.places[it][3] or "", ([], []))[1]
        return []

    def split(self, rest, places, goal, here):
        """`⊎_elim (λ w. ..) (λ w. ..) c.STEP.branch` as an `elim`, and how much of the text it takes."""
        parts, at = [], 0
        for _ in range(3):
            gap = re.match(r"\s+", rest[at:])
            if not gap:
                return None
            at += gap.end()
            if rest[at] == "(":
                end = at + next((k + 1 for k in range(len(rest) - at) if matching(rest[at : at + k + 1]) and rest[at + k] == ")"), 0)
            else:
                end = at + re.match(r"%s(?:\.%s)*" % (W, W), rest[at:]).end()
            parts.append(rest[at:end])
            at = end
        head, *path = parts[2].split(".")
        if head not in places or path[-1:] != ["branch"]:
            return None
        place, (step, _) = self.resolved(places[head], path)[0], path[-2:]
        join = next((it for it in self.f.chain(place) if flat(self.f.places[it][2][0]) == flat(step)), None)
        if join is None:
            return None
        above = self.f.parent(join)
        sides = [k for k, it in enumerate(self.f.places) if flat(it[2][0]) == flat(step) and k != join and self.f.parent(k) == above]
        if len(sides) != 2:
            self.look.append("branches: " + parts[2])
            return None
        new, cases = self.f.places[join][2][1], []
        for side, end, part in zip(sides, (sides[1], join), parts[:2]):
            case = self.f.new_place(side)
            case = case[:1].lower() + case[1:]
            self.above.add(case)
            found = re.match(r"\(λ (\S+)\. (.*)\)$", " ".join(part.split()), re.S)
            if not found:
                return None
            self.branches[found[1]] = (list(range(side, end)), self.joined(join))
            cases.append("%s %s ↦ %s" % (case, found[1], self.text(found[2], places, goal, here)))
        return "elim c.%s.branch [ %s ]" % (new, " | ".join(cases)), at

    def joined(self, join):
        """The variables of a join: its slices, or else those that the old file cites."""
        slices = [new[len("long-"):] for _, new in self.f.places[join][4] if new.startswith("long-")]
        if slices:
            return slices
        step = self.f.places[join][2][0]
        names = re.findall(r"\.%s\.(\w[\w-]*)" % re.escape(step), flat(self.whole))
        return [it for it in dict.fromkeys(names) if it not in ("branch", "true", "false", "auto")]

    def in_branch(self, here, head, parts):
        """A path from the facts of a branch, which were a tuple: its steps, and then the equations of the joined variables."""
        steps, variables = self.branches[head]
        if not parts[0].isdigit():
            return ".".join([head] + parts)
        at, rest = int(parts[0]), parts[1:]
        if at < len(steps):
            place = steps[at]
            old, new = self.f.places[place][2]
            rest = [{"taken": "true", "left": "false"}.get(it, it) for it in rest[:1]] + rest[1:]
            return ".".join([head] + self.step(place, place, new, old, rest))
        at -= len(steps)
        if at < len(variables):
            return ".".join(["%s.%s-is" % (head, variables[at])] + rest)
        self.look.append("%s is the equation of the joined variable number %d: write %s.VARIABLE-is" % (".".join([head] + parts), at + 1, head))
        return ".".join([head] + parts)

    def record(self, place, goal, here):
        """The record at a place above."""
        if place == here:
            return "c"
        return "(goal.at.%s c).%s" % (goal, self.f.new_place(place))

    def call(self, name, rest, places, goal, here):
        """A call of a local lemma over a record; sets how much of the text it takes."""
        self.taken = 0
        found = re.match(r"\s+(%s(?:\.%s)*)" % (W, W), rest)
        if not found:
            return name
        head, *parts = found[1].split(".")
        if head not in places:
            return name
        to = self.resolved(places[head], parts)
        if not to or to[1]:
            return name
        self.taken = found.end()
        # The lemma's own record, also where the old walk had more steps or fewer.
        own = self.helpers[name]["place"]
        place = own if own in self.f.chain(here) else to[0]
        return name + " " + self.record(place, goal, here)


def as_pairs(path, names):
    """Several clauses as the pairs that they were, for a lemma that takes them so."""
    if not names or len(names) < 2:
        return path
    out = "%s.%s" % (path, names[-1])
    for it in reversed(names[:-1]):
        out = "(%s.%s, %s)" % (path, it, out)
    return out


def by_label(names, rest):
    """`.ensures.0` and the like under the clauses' names. Three clauses were pairs nested to the right or to the left."""
    if names and len(names) == 1:
        return names + rest
    if not names or not rest or rest[0] not in "01":
        return rest
    rest = list(rest)
    at, left = 0, len(names)
    while left > 1 and rest and rest[0] in "01":
        if rest[0] == "0":
            rest.pop(0)
            left = 1
        else:
            rest.pop(0)
            at += 1
            left -= 1
    return [names[at]] + rest if left == 1 else ["?"] + rest


def clauses_of(root):
    """The names of each function's `requires` and `ensures`, in order, by the function's path."""
    out = {}
    for crate in sorted(os.listdir(os.path.join(root, "crates"))):
        for base, _, files in os.walk(os.path.join(root, "crates", crate, "src")):
            for name in files:
                if not name.endswith(".rt"):
                    continue
                text = read(os.path.join(base, name))
                for it in re.finditer(r"(?ms)^ *(?:pub )?(?:unsafe )?fn (\w+).*?^ *\{$", text):
                    labels = [re.findall(r"(?m)^ *%s\*? (\w+) \{" % kind, it[0]) for kind in ("requires", "ensures")]
                    out["%s::%s" % (crate, it[1])] = labels
    return out


def is_used(name, text):
    return re.search(r"(?<![^\s(){}.;,\[\]λ←])%s(?![^\s(){}.;,\[\]])" % re.escape(name), text)


def hole_used(name, text):
    """Whether an operator as ◌∙◌ is used."""
    parts = [it for it in name.split("◌") if it]
    return all(is_used(it, text) or it in text for it in parts) if parts else True


def imports(uses, text, skip):
    out = []
    for line in uses:
        if skip(line):
            continue
        of = re.match(r"((?:pub )?use \S+?)\.\{(.*)\}$", line)
        if of:
            kept = []
            for it in of[2].split(","):
                it = it.strip()
                name = it.split(" as ")[-1].strip()
                used = hole_used(name, text) if "◌" in name else is_used(name, text)
                if used:
                    kept.append(it)
            if kept:
                out.append("%s.{%s}" % (of[1], ", ".join(kept)))
            continue
        alias = re.match(r"use \S+ as (\S+)$", line)
        if alias and not is_used(alias[1], text):
            continue
        out.append(line)
    return out


def turned(path, crate, function_path, of, labels):
    """Writes the new files of one function; returns what to look at."""
    text = read(path)
    head, uses, blocks = parsed(text)
    f = Function(of)
    turn = Turn(f, labels, labels.get("%s::%s" % (crate, function_path.replace(".", "::")), ([], []))[0])
    skip = lambda line: re.search(r"\.proofs\.\S+\.(Statement|Tie)\b", line) and function_path in line
    aliases = [m[1] for m in (re.match(r"use \S+\.Tie as (\S+)$", it) for it in uses) if m]
    tie = aliases[0] if aliases else "tie"
    last = next((it for it in reversed(blocks) if it.name and re.search(r"\b%s\.spec\b" % re.escape(tie), "\n".join(it.lines))), None)
    if not last:
        return None
    body = "\n".join(last.lines)
    args = atoms(body[body.index(tie + ".spec") + len(tie + ".spec"):])
    named = {it.name: it for it in blocks if it.name}
    loops, goals, rest = [], {}, []
    for it in blocks:
        if it is last or not it.name:
            continue
        inv = re.match(r"%s\.((?:invariant|decreases)-\S+)" % re.escape(tie), it.sig)
        if inv:
            loops.append((inv[1], it))
    needs = [it for it in args if not (it in named and any(it == b.name for _, b in loops))]
    by_place = len(needs) == len(f.needs)
    answers, answered = [], {}
    look = turn.look
    for index, it in enumerate(needs):
        block = named.get(it)
        asked = block and re.match(r"%s\.Need-(\S+)" % re.escape(tie), block.sig)
        at = index if by_place else None
        if asked:
            want = flat(asked[1])
            same = [k for k, n in enumerate(f.needs) if flat(n[0]) == want or flat(n[1]) == want]
            if not same:
                short = re.sub(r"^(overflow|nonzero)-", "", want)
                same = [k for k, n in enumerate(f.needs) if flat(n[0]) == short]
            if same and not by_place:
                at = same[0]
        if at is None:
            if block is None and it.startswith("(") and not is_trivial(it):
                look.append("no goal for " + it)
            elif block is not None:
                look.append("no goal for " + block.name)
                answers.append((None, block, it))
            continue
        answers.append((at, block, it))
    # Lemmas over a record, and all others.
    for it in blocks:
        if it is last or any(it is b for _, b in loops) or any(it is b for _, b, _ in answers):
            continue
        over = it.name and re.match(r"\((%s) : %s\.([^\s()]+)[^()]*\)\s*→\s*" % (W, re.escape(tie)), it.sig)
        if over and flat(over[2]) in f.at and len(it.equations) == 1:
            place = f.at[flat(over[2])]
            turn.helpers[it.name] = {"block": it, "place": place, "type": it.sig[over.end():], "var": over[1]}
    out, of_goals = [], set()
    by_block = {id(b): at for at, b, _ in answers if b}
    turn.whole = text
    for base, _, files in os.walk(os.path.join("crates", crate, "src")):
        turn.source += "".join(read(os.path.join(base, it)) for it in files if it.endswith(".rt"))
    turn.goals = {b.name: f.needs[at][1] for at, b, _ in answers if b and at is not None}
    inlined = [(at, it) for at, b, it in answers if b is None]
    for it in blocks:
        if it is last or any(it is b for _, b in loops):
            continue
        if id(it) in by_block:
            at = by_block[id(it)]
            out.append(answer(turn, it, at, tie))
        elif it.name in turn.helpers:
            out.append(lemma(turn, turn.helpers[it.name]))
            of_goals.add(f.new_place(turn.helpers[it.name]["place"]))
        else:
            out.append("\n".join(it.comment + it.lines))
    for at, it in inlined:
        if is_trivial(it) and (not last.unfolding or ".match.keys" in it):
            continue
        found = re.match(r"\(λ ([^.]*)\. (.*)\)$", it, re.S)
        goal = f.needs[at][1]
        head_lines = "\n".join(["pub %s : goal.%s" % (goal, goal)] + last.unfolding)
        if not found:
            out.append("%s\n%s = %s" % (head_lines, goal, it))
            continue
        c = found[1].split()[0]
        place = f.at[flat(f.asked_at[at][0])]
        right = turn.text(found[2], {c: place}, goal, place)
        right = named_clauses(turn, goal, right)
        out.append("%s\n%s c = %s" % (head_lines, goal, right))
    out = [it for it in out if it]
    folder = os.path.dirname(path)
    module = re.search(r"use (Rattle\.\S+)\.Tie\b", text)[1]
    written = 0
    answers_text = "\n\n".join(out)
    if not any(re.search(r"(?m)^pub \S+ : goal\.", it) for it in out):
        answers_text = ""
    if answers_text:
        # A lemma that nothing cites goes.
        lines = imports(uses, answers_text, skip)
        of_goals = sorted(it for it in of_goals | turn.above if is_used(it, answers_text))
        for it in sorted(turn.wants):
            of, _, name = it.rpartition(".")
            if not any(re.search(r"[{ ]%s[,}]" % re.escape(name), line) for line in lines):
                lines.append("use %s.{%s}" % (of, name))
        lines.append("use %s.Goals as goal" % module)
        if of_goals:
            lines.append("use %s.Goals.{%s}" % (module, ", ".join(of_goals)))
        marks = ["-- look: " + it for it in dict.fromkeys(look)]
        write(os.path.join(folder, "Answers.antt"), "\n".join(head + lines + marks) + "\n\n" + answers_text + "\n")
        written += 1
    loop_text = [invariant(f, name, it, look) for name, it in loops]
    if loop_text:
        body = "\n\n".join(loop_text)
        lines = imports(uses, body, skip) + ["use %s.Given as goal" % module]
        top = head if not answers_text else []
        write(os.path.join(folder, "Invariants.antt"), "\n".join(top + lines) + "\n\n" + body + "\n")
        written += 1
    return list(dict.fromkeys(look))


def is_trivial(text):
    found = re.match(r"\(λ [^.]*\. (.*)\)$", text, re.S)
    return bool(FOUND.fullmatch(" ".join((found[1] if found else text).split())))


def named_clauses(turn, goal, right):
    """The body with a record in place of a tuple, where the goal has several clauses."""
    old = next((it[0] for it in turn.f.needs if it[1] == goal), goal)
    names = turn.f.asked.get(old) or turn.f.asked.get(goal) or []
    if len(names) < 2:
        return right
    now = as_record(right, names)
    if now is None:
        # The pair stands behind a `let`, and its parts under the names.
        head, last = last_part(right)
        fields = ["all" + ".1" * k + (".0" if k < len(names) - 1 else "") for k in range(len(names))]
        if not re.match(r"\(?(rw|simp|omega|grind|search|cc|elim|λ|absurd)\b", last.strip()):
            now = "%slet all = %s in record { %s }" % (head, last.strip(), "; ".join("%s = %s" % it for it in zip(names, fields)))
        else:
            turn.look.append("%s wants a record { %s }" % (goal, "; ".join(it + " = .." for it in names)))
    return now or right


def last_part(text):
    """What stands before the last part of a chain of `let`s, and that part."""
    depth, cut = 0, 0
    for it in re.finditer(r"[(\[{]|[)\]}]|(?<=\s)in(?=\s)", text):
        if it[0] == "in":
            cut = it.end() if depth == 0 else cut
        else:
            depth += 1 if it[0] in "([{" else -1
    return (text[:cut] + "\n    " if cut else "\n    "), text[cut:]


def as_record(text, names):
    """A tuple at the end of a body as a record with the clauses' names, or None."""
    end = text.rstrip()
    if not end.endswith(")"):
        return None
    depth = 0
    for at in range(len(end) - 1, -1, -1):
        depth += (end[at] == ")") - (end[at] == "(")
        if depth == 0:
            break
    before = end[:at].rstrip()
    under = re.search(r"(?<![^\s(])(rw|simp)\s+(%s(?:\.%s)*|\([^()]*(\([^()]*(\([^()]*\)[^()]*)*\)[^()]*)*\))$" % (W, W), before)
    if before and not under and not re.search(r"(^|\s)in$|(?<![^\s(])λ [^.]*\.$", before):
        return None
    parts = commas(end[at + 1 : -1])
    while len(parts) < len(names):
        last = parts[-1].strip()
        more = commas(last[1:-1]) if last.startswith("(") and matching(last) else []
        if len(more) < 2:
            return None
        parts = parts[:-1] + more
    if len(parts) != len(names):
        return None
    record = "record { " + "; ".join("%s = %s" % (name, it.strip()) for name, it in zip(names, parts)) + " }"
    return end[:at] + ("(%s)" % record if under else record)


def matching(text):
    """Whether the parenthesis at the head closes at the end."""
    depth = 0
    for at, it in enumerate(text):
        depth += (it == "(") - (it == ")")
        if depth == 0:
            return at == len(text) - 1
    return False


def commas(text):
    """The parts of a tuple's text. A binder or a `let` at the head of a part reaches to the end."""
    out, depth, start = [], 0, 0
    for at, it in enumerate(text):
        depth += (it in "([{") - (it in ")]}")
        if it == "," and depth == 0:
            out.append(text[start:at])
            start = at + 1
    return out + ([text[start:]] if text[start:].strip() else [])


def answer(turn, block, at, tie):
    f = turn.f
    args, right = block.sides()
    if at is None:
        return "-- look: no goal has this name now\n" + "\n".join(block.comment + block.lines)
    if FOUND.fullmatch(" ".join(right.split())) and not block.unfolding:
        return ""
    goal = f.needs[at][1]
    place = f.at[flat(f.asked_at[at][0])]
    right = turn.text(right, {args[0]: place} if args else {}, goal, place)
    right = named_clauses(turn, goal, right)
    gap = "" if right.startswith("\n") else " "
    left = "%s c" % goal if args else goal
    lines = block.comment + ["pub %s : goal.%s" % (goal, goal)] + block.unfolding
    return "\n".join(lines) + "\n%s =%s%s" % (left, gap, right)


def lemma(turn, helper):
    block, place = helper["block"], helper["place"]
    args, right = block.sides()
    named = turn.f.new_place(place)
    type_text = turn.text(helper["type"], {helper["var"]: place}, named, place)
    right = turn.text(right, {args[0]: place} if args else {}, named, place)
    arrow = "\n    → " if "\n" in block.sig else " → "
    gap = "" if right.startswith("\n") else " "
    sig = "%s : (c : %s)%s%s" % (block.name, named, arrow, type_text)
    return "\n".join(block.comment + [sig] + block.unfolding) + "\n%s =%s%s" % (" ".join([block.name, "c"] + args[1:]), gap, right)


def invariant(f, name, block, look):
    kind, _, loop = name.partition("-")
    at = next((k for k, it in enumerate(f.loops) if flat(it[0][0]) == flat(loop)), 0)
    (_, new), names = f.loops[at]
    changed = f.changed[at] if at < len(f.changed) else []
    args, right = block.sides()
    each = names + [it for it, is_changed in zip(names, changed) if is_changed]
    if len(args) != len(each):
        look.append("%s has %d arguments, and not %d: %s" % (name, len(args), len(each), each))
    to = {}
    for index, (arg, it) in enumerate(zip(args, each)):
        first = index < len(names)
        to[arg] = "l.initial." + it if first and index < len(changed) and changed[index] else "l." + it
    def one(found):
        word = found[0]
        if word.startswith(("--", '"')):
            return word
        head, *parts = word.split(".")
        return ".".join([to.get(head, head)] + parts)
    right = PATH.sub(one, right)
    gap = "" if right.startswith("\n") else " "
    full = "%s-%s" % (kind, new)
    return "\n".join(block.comment + ["abbrev pub %s : goal.%s" % (full, full)] + block.unfolding) + "\n%s l =%s%s" % (full, gap, right)


def names_of(folder):
    with tempfile.TemporaryDirectory() as to:
        ran = subprocess.run(["rt", "check", "--generated", to, "--old-names"], cwd=folder, stdout=subprocess.PIPE, stderr=subprocess.STDOUT)
        path = os.path.join(to, "names.json")
        if not os.path.isfile(path):
            print(ran.stdout.decode()[-3000:])
            sys.exit("answers: %s: no names were written: mend its source, and prove what lies below it, first" % folder)
        return json.loads(read(path))


def main():
    args = sys.argv[1:]
    names, keep, crates = None, False, []
    while args:
        it = args.pop(0)
        if it == "--names":
            names = args.pop(0)
        elif it == "--keep":
            keep = True
        elif it.startswith("-"):
            sys.exit(__doc__)
        else:
            crates.append(it)
    if not crates:
        sys.exit(__doc__)
    labels = clauses_of(".")
    for crate in crates:
        folder = os.path.join("crates", crate)
        of = json.loads(read(names)) if names else names_of(folder)
        by_path = {}
        for module, it in of.items():
            if ".Lts" in module:
                by_path[module.split(".", 1)[1].rsplit(".Lts", 1)[0]] = it
        for base, _, files in sorted(os.walk(os.path.join(folder, "proofs"))):
            if "Proof.antt" not in files:
                continue
            path = os.path.join(base, "Proof.antt")
            function = os.path.relpath(base, os.path.join(folder, "proofs")).replace("/", ".")
            if function not in by_path:
                print("%s: no names" % path)
                continue
            look = turned(path, crate, function, by_path[function], labels)
            if look is None:
                print("%s: a walk, or another form: left" % path)
                continue
            for it in look:
                print("%s: look: %s" % (path, it))
            if keep:
                os.rename(path, os.path.join(base, "Proof.old"))
            else:
                os.remove(path)


if __name__ == "__main__":
    main()
