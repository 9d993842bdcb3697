#!/usr/bin/env python3
"""Turns a function's proofs/F/Proof.antt of an older Rattle into Invariants.antt and Answers.antt.

usage: answers.py NAMES CRATE [FUNCTION..]     at the top of the repository, for a crate's folder below crates/

NAMES is the names.json that `rt check --generated DIR --old-names` writes in the crate's folder: for each function
the old and the new name of each goal, step and loop. Proof.antt is read as it stood after port.py and respell.py, and is
removed; what the script can't turn is printed, by function and goal.
"""
import json
import os
import re
import sys

WORD = r"[^\s(){}\[\].,;:⌜⌝]+"


def norm(s):
    s = s.replace("_", "-")
    return s[len("overflow-"):] if s.startswith("overflow-") else s


def split_items(text):
    """The items at column 0: (kind, name, text), with the comments above them."""
    lines = text.split("\n")
    items, cur = [], []
    for line in lines:
        if items and line[:1] in (")", "]"):
            items[-1].append(line)
        elif line and not line[0].isspace() and not line.startswith("--"):
            items.append([line])
        elif line.startswith("--"):
            items.append([line])
        elif items:
            items[-1].append(line)
        else:
            items.append([line])
    joined, name = [], None
    for i in ("\n".join(i).rstrip() for i in items):
        first = re.match(r"(?:abbrev |unfoldable |record |data )?(?:pub )?(?:abbrev |unfoldable |record |data )?(%s)" % WORD, i)
        word = first.group(1) if first else None
        if joined and name and not i.startswith("--") and (i.startswith("unfolding") or word == name and not re.match(r"\S+ :", i)):
            joined[-1] += "\n" + i
            continue
        joined.append(i)
        name = None if i.startswith(("--", "use ", "module ")) else word
    return joined


class Function:
    def __init__(self, names, crate, path, text, said):
        self.crate, self.path, self.text, self.said = crate, path, text, said
        self.n = names["Rattle-%s-proofs.%s.Lts" % (crate, path.replace("/", "."))]
        self.place = {p[0]: p for p in self.n["places"]}
        self.arms = dict(zip([p[0] for p in self.n["places"]], self.n["arms"]))
        self.needs = [(norm(o), n, at[0]) for (o, n), at in zip(self.n["needs"], self.n["asked_at"])]

    def say(self, what):
        self.said.append("%s/%s: %s" % (self.crate, self.path, what))

    def array(self, m):
        """An array argument by its own name, where it was t1, t2 and so on."""
        name = self.path.split("/")[-1]
        for folder, _, files in sorted(os.walk(os.path.join("crates", self.crate, "src"))):
            for f in files:
                text = open(os.path.join(folder, f)).read()
                s = re.search(r"fn %s\(([^{]*?)\)" % re.escape(name), text)
                if s:
                    given = re.findall(r"(?:^|,)\s*(?:mut )?(\w+)(?:: |$|,)", s.group(1))
                    k = int(m.group(1)) - 1
                    return given[k] if k < len(given) else m.group(0)
        return m.group(0)

    # ---- a chain of fields from a place
    def has(self, place, step):
        return self.has_it(place, step) or self.has_it(place, re.sub(r"[-_](lem|holds)$", "", step))

    def has_it(self, place, step):
        p = self.place[place]
        arm = self.arms.get(place)
        return norm(step) == norm(p[2][0] if p[2] else "") or any(norm(o) == norm(step) for _, o, _ in (arm[2] if arm else []))

    def meant(self, place, step):
        """The place whose step has this name, where what lies between counts other steps today."""
        if place is None or self.has(place, step) or step in ("args", "requires", "ranges", "utf8", "type-inv", "well-formed"):
            return place
        up = place
        while up is not None:
            if self.has(up, step):
                return up
            up = self.place[up][1]
        down = [q for q in self.place if self.has(q, step)]
        return down[0] if len(down) == 1 else place

    def chain(self, place, parts):
        """(the place, None) where the chain ends at a place, or (None, new text)."""
        parts = list(parts)
        while parts and parts[0] == "before":
            # past the start where steps of an older Rattle are no steps today
            place = self.place[place][1] or place
            parts.pop(0)
        if not parts:
            return place, None
        place = self.meant(place, parts[0])
        step, rest = parts[0], [r.replace("-", "_") for r in parts[1:]]
        arm = self.arms.get(place)
        if arm and norm(step) == "match" and rest and re.match(r"keys\d", rest[0]):
            first = [a[0] for a in self.arms.values() if a and a[0].startswith("in-")]
            fact = "not" + first[0][2:] if arm[0] == "in_default" and first else "is"
            return None, ".".join(["c", arm[0], fact] + rest[1:])
        for field, old, path in (arm[2] if arm else []):
            if norm(old) == norm(step) and path and rest[: len(path)] == path:
                return None, ".".join(["c", arm[0], field] + rest[len(path):])
        p = self.place[place]
        old, new = p[2] if p[2] else ("", "")
        if norm(re.sub(r"[-_](lem|holds)$", "", step)) == norm(old) and new:
            name = new
        elif step in ("args", "requires", "ranges", "utf8", "type-inv", "well-formed"):
            name = step.replace("-", "_")
        else:
            self.say("at %s no step %s (it has %s)" % (place, step, p[2]))
            name = step
        return None, ".".join(["c", name] + rest)

    def body(self, text, place):
        """An answer's text with its chains from c, and from names bound to places, turned."""
        text = re.sub(r"\.taken(?!\w)", ".true", text)
        at = {"c": place}
        aliases = set()
        out = text
        # names that a let binds to a place, in order
        pos = 0
        while True:
            m = re.compile(r"let (%s) = ((?:%s)(?:\.before)*) in\s*" % (WORD, r"[^\s(){}\[\].,;:⌜⌝]+?")).search(out, pos)
            if not m:
                break
            base = m.group(2).split(".")
            if base[0] not in at:
                pos = m.end()
                continue
            pl, _ = self.chain(at[base[0]], base[1:])
            at[m.group(1)] = pl
            out = out[: m.start()] + out[m.end():]
            pos = m.start()
        for m in re.finditer(r"let (%s)(?: : [^=]*)? = (%s)\.(%s)((?:\.%s)*) in" % (WORD, WORD, WORD, WORD), out):
            aliases.add(m.group(1))

        def turn(m):
            name, parts = m.group(1), m.group(2).split(".")[1:]
            if name in at:
                pl, new = self.chain(at[name], parts)
                if new is None:
                    self.say("a bare place %s" % m.group(0))
                    return m.group(0)
                return new
            if name in aliases:
                return ".".join([name] + [p.replace("-", "_") for p in parts])
            return m.group(0)

        out = re.sub(r"(?<![\w.'-])(%s)((?:\.%s)+)" % (r"[^\s(){}\[\].,;:⌜⌝←]+", WORD), turn, out)
        out = re.sub(r"(?<=\.)t(\d)\b", self.array, out)
        # the test of a `!x` says today what x is
        out = re.sub(r"not-(?:true|false) \S+ \((c\.if-not-[^\s()]+)\)", r"\1", out)
        out = re.sub(r"not-(?:true|false) \S+ (c\.if-not-[^\s()]+)", r"\1", out)
        if re.search(r"\bw\.\d", out) or ".branch" in out or ".given" in out or ".keys" in out:
            self.say("by hand: branch, given or keys: %s" % " ".join(out.split())[:160])
        return out

    # ---- invariants and measures
    def loop_of(self, name):
        for i, ((old, new), variables) in enumerate(self.n["loops"]):
            if norm(old) == norm(name):
                return new, variables, self.n["changed"][i]
        return None

    def invariant(self, item, kind):
        m = re.match(r"abbrev (?:pub )?%s-(%s) : tie\.\S+\n" % (kind, WORD), item)
        loop = self.loop_of(m.group(1))
        rest = item[m.end():]
        if loop is None:
            self.say("no loop %s" % m.group(1))
            return m.group(1), item
        new, variables, changed = loop
        unf = ""
        if rest.startswith("unfolding"):
            unf, rest = rest.split("\n", 1)
            unf += "\n"
        lhs, body = re.match(r"%s-\S+((?: \S+)*?) =\s(.*)" % kind, rest, re.S).groups()
        params = lhs.split()
        want = []
        for v, ch in zip(variables, changed):
            want.append("l.initial." + v if ch else "l." + v)
        want += ["l." + v for v, ch in zip(variables, changed) if ch]
        if len(want) != len(params):
            self.say("%s-%s: %s for %s" % (kind, new, params, want))
        sub = dict(zip(params, want))

        def turn(m):
            return sub.get(m.group(0), m.group(0))

        body = re.sub(r"(?<![^\s(){}\[\],;:])[^\s(){}\[\].,;:]+", turn, body)
        return new, "abbrev pub %s-%s : goal.%s-%s\n%s%s-%s l = %s" % (kind, new, kind, new, unf, kind, new, body)

    # ---- the whole file
    def convert(self):
        uses, invs, helpers, answers = [], [], [], []
        comment = []
        head = []
        for item in split_items(self.text):
            if item.startswith("--"):
                comment.append(item)
                continue
            if not item.strip():
                continue
            if item.startswith("use "):
                if comment and not uses:
                    head = comment
                    comment = []
                if re.search(r"\.(Statement|Tie)[. ]", item + " ") or re.search(r"\.Tie\b", item):
                    continue
                uses.append(item)
                continue
            if re.match(r"pub \S+[-_]spec :", item) or re.match(r"\S+[-_]spec =", item):
                comment = []
                continue
            m = re.match(r"(?:abbrev )?(?:pub )?(%s)\s*:\s*tie\.(%s)" % (WORD, WORD), item)
            if m and m.group(2).startswith("invariant-"):
                invs.append("\n".join(comment + [self.invariant(item, "invariant")[1]]))
                comment = []
                continue
            if m and m.group(2).startswith("decreases-"):
                invs.append("\n".join(comment + [self.invariant(item, "decreases")[1]]))
                comment = []
                continue
            if m and m.group(2).startswith("Need-"):
                need = norm(m.group(2)[len("Need-"):])
                found = [(n, at) for o, n, at in self.needs if o == need]
                name = m.group(1)
                lines = item.split("\n")
                k = 1
                while k < len(lines) and not re.match(r"%s(?=\s)[^:]*=" % re.escape(name), lines[k]) and not lines[k].startswith("unfolding"):
                    k += 1
                unf = ""
                if k < len(lines) and lines[k].startswith("unfolding"):
                    unf = lines[k] + "\n"
                    k += 1
                eq = "\n".join(lines[k:])
                mm = re.match(r"%s((?: \S+)*?) =(\s.*)" % re.escape(name), eq, re.S)
                if not found or not mm:
                    self.say("no goal for %s (%s)" % (m.group(2), [n for _, n, _ in self.needs]))
                    comment = []
                    continue
                new, at = found[0]
                body = mm.group(2)
                if body.strip() == "search rules":
                    comment = []
                    continue
                body = self.body(body, at)
                answers.append("\n".join(comment + ["pub %s : goal.%s\n%s%s c =%s" % (new, new, unf, new, body)]))
                comment = []
                continue
            helpers.append("\n".join(comment + [item]))
            comment = []
        return head, uses, helpers, invs, answers

    def files(self):
        head, uses, helpers, invs, answers = self.convert()
        base = "Rattle.%s.proofs.%s" % (self.crate, self.path.replace("/", "."))
        # signature and clauses of a helper stand in items of their own: join them by name
        groups, order = {}, []
        for h in helpers:
            body = "\n".join(l for l in h.split("\n") if not l.startswith("--"))
            m = re.match(r"(?:abbrev |unfoldable )?(?:pub )?(?:abbrev |unfoldable |record |data )?(?:pub )?(%s)" % WORD, body)
            name = m.group(1)
            if name == "unfolding":
                name = order[-1]
            if name == "module":
                name = "module%d" % len(order)
            if name not in groups:
                groups[name] = []
                order.append(name)
            groups[name].append(h)
        inv_text = "\n\n".join(invs)
        needed, grew = set(), True
        while grew:
            grew = False
            pool = inv_text + "\n".join("\n".join(groups[n]) for n in needed)
            for n in order:
                if n not in needed and re.search(r"(?<![^\s(){}\[\].,;:])%s(?![^\s(){}\[\].,;:])" % re.escape(n), pool):
                    needed.add(n)
                    grew = True
        out = {}
        usetext = "\n".join(uses)

        def helper(n, public):
            h = "\n".join(groups[n])
            if public and not re.search(r"^(abbrev |unfoldable )?pub ", re.sub(r"^--.*\n", "", h, flags=re.M)):
                lines = h.split("\n")
                for i, l in enumerate(lines):
                    if not l.startswith("--"):
                        lines[i] = re.sub(r"^(abbrev |unfoldable |record |data )?", lambda m: (m.group(1) or "") + "pub ", l)
                        break
                h = "\n".join(lines)
            return h

        shared = [n for n in order if n in needed]
        own = [n for n in order if n not in needed]
        if invs:
            parts = ["\n".join(head + [usetext, "use %s.Given as goal" % base])]
            parts += [helper(n, True) for n in shared] + invs
            out["Invariants.antt"] = "\n\n".join(p for p in parts if p) + "\n"
        atext = "\n\n".join(answers)
        if answers:
            u = usetext
            used = [n for n in shared if re.search(r"(?<![^\s(){}\[\].,;:])%s(?![^\s(){}\[\].,;:])" % re.escape(n), atext + "\n".join("\n".join(groups[x]) for x in own))]
            if used:
                u += "\nuse %s.Invariants.{%s}" % (base, ", ".join(used))
            parts = ["\n".join(([] if invs else head) + [u, "use %s.Goals as goal" % base])]
            parts += [helper(n, False) for n in own] + answers
            out["Answers.antt"] = "\n\n".join(p for p in parts if p) + "\n"
        elif own:
            self.say("helpers with no answer: %s" % own)
        return out


def main():
    names = json.load(open(sys.argv[1]))
    crate = sys.argv[2]
    only = sys.argv[3:]
    said = []
    top = os.path.join("crates", crate, "proofs")
    for folder, _, files in sorted(os.walk(top)):
        path = os.path.relpath(folder, top)
        if "Proof.antt" not in files or (only and path not in only):
            continue
        p = os.path.join(folder, "Proof.antt")
        text = open(p).read()
        if "tie.close" not in text or "+" in path:
            said.append("%s/%s: a walk or a cycle, left" % (crate, path))
            continue
        key = "Rattle-%s-proofs.%s.Lts" % (crate, path.replace("/", "."))
        if key not in names:
            said.append("%s/%s: not in NAMES, left" % (crate, path))
            continue
        f = Function(names, crate, path, text, said)
        try:
            out = f.files()
        except Exception as e:
            said.append("%s/%s: %r, left" % (crate, path, e))
            continue
        os.remove(p)
        for name, t in out.items():
            open(os.path.join(folder, name), "w").write(t)
        if not out:
            try:
                os.rmdir(folder)
            except OSError:
                pass
    print("\n".join(said))


main()
