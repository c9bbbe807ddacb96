"""Carries the text of a function's Proof.antt over to another version of its code, by the places and needs that both have.

A term that is a place (the argument of an answer or of a lemma, a `let` of one, a function from one place to another, each with some `.before`)
is followed from the old place to the same place of the new walk; names of places, needs, loops and fields go with it.
"""
import re

from carry_walk import same_need, stem

TOKEN = re.compile(r"--[^\n]*|\s+|\"[^\"\n]*\"|[()\[\]{},;]|[^\s()\[\]{},;\"]+")
SIGN = re.compile(r"(?:(?:unfoldable|abbrev|pub) )*([^\s:]+)(?: \{[^}]*\})? :(?:\s|$)")
STARTS = {"in", "let", "=", "→", "then", "else", "of", "where", "with", "↦", "|", ":"}
OPEN, CLOSE = {"(": ")", "[": "]", "{": "}"}, {")", "]", "}"}
NEEDS = "use borrow.Author.Needs.{needs}"


def space(token):
    return token.isspace() or token.startswith("--")


def begins_term(last):
    """Whether a word that stands after this token begins a term, and is no argument of what stands before."""
    if last is None or last in STARTS or last in OPEN or last in (",", ";"):
        return True
    return last.endswith(".") and len(last) > 1 or not re.search(r"[A-Za-z0-9_)\]}α-κμ-ωΑ-Ω'₀-₉·?]", last)


def closing(tokens, i):
    """The index of what closes the bracket at i."""
    depth = 0
    for k in range(i, len(tokens)):
        depth += (tokens[k] in OPEN) - (tokens[k] in CLOSE)
        if depth == 0:
            return k
    return len(tokens) - 1


def ahead(tokens, i):
    """The index of the next token after i that is no space, or the number of tokens."""
    i += 1
    while i < len(tokens) and space(tokens[i]):
        i += 1
    return i


def back(tokens, i):
    """The index of the token before i that is no space, or -1."""
    i -= 1
    while i >= 0 and space(tokens[i]):
        i -= 1
    return i


class Term:
    """A place that a proof names: from token `start` to `end`, with `.before` behind token `head`; its places, and the old and the new number
    of `.before`."""

    def __init__(self, start, head, end, steps, old, new, count):
        self.start, self.head, self.end, self.steps, self.old, self.new, self.count = start, head, end, steps, old, new, count


class Declaration:
    """A declaration at the margin, with the comments above it: its tokens as they were and as they are to be, and where its clauses begin."""

    def __init__(self, name, text, line):
        self.name, self.line, self.tokens, self.dropped = name, line, TOKEN.findall(text), False
        self.out, self.start, self.clauses, self.followed = list(self.tokens), 0, [], set()
        if name is not None:
            found = [i for i, t in enumerate(self.tokens) if t == name and self.first_in_line(i)]
            self.start, self.clauses = found[0], found[1:] + [len(self.tokens)]

    def first_in_line(self, i):
        return re.fullmatch(r"(?:(?:pub|abbrev|unfoldable) )*", "".join(self.tokens[:i]).rsplit("\n", 1)[-1]) is not None

    def line_of(self, i):
        return self.line + "".join(self.tokens[:i]).count("\n")

    def section(self):
        """Where the title of the next section stands in what is to be written, or the end."""
        return next((i for i, t in enumerate(self.out) if self.name is not None and t.startswith("-- ----")), len(self.out))

    def text(self):
        return "".join(self.out)


def declarations(text):
    """The text as declarations; the first has no name and is what stands above them all."""
    lines, starts = text.split("\n"), []
    for i, line in enumerate(lines):
        m = SIGN.match(line)
        if m and not line.startswith(("use ", "--")):
            k = i
            while k > 0 and lines[k - 1].startswith("--") and not lines[k - 1].startswith("-- ----"):
                k -= 1
            starts.append((k, m.group(1)))
    ends = [k for k, _ in starts] + [len(lines)]
    found = [Declaration(None, "".join(line + "\n" for line in lines[:ends[0]]), 1)] if ends[0] else []
    for (k, name), end in zip(starts, ends[1:]):
        found.append(Declaration(name, "".join(line + "\n" for line in lines[k:end]), k + 1))
    found[-1].out[-1] = found[-1].out[-1][:-1]
    return found


class Carrier:
    """One file: from the old walk to the new, by the pairs of their places and needs."""

    def __init__(self, old, new, places, needs, path="Proof.antt"):
        self.old, self.new, self.places, self.needs, self.path = old, new, places, needs, path
        self.moved, self.renamed, self.notes, self.left, self.holes = 0, 0, [], [], False
        self.takes = {}
        for name in old.takes:
            kind, loop = name.split("-", 1)
            later = places.get("At-" + loop)
            if later and "%s-%s" % (kind, later[3:]) in new.takes:
                self.takes[name] = "%s-%s" % (kind, later[3:])

    def say(self, declaration, i, what):
        self.left.append("%s:%d: %s" % (self.path, declaration.line_of(i), what))

    def rename(self, d, i, name):
        """Another name for token i."""
        self.renamed += name != d.tokens[i]
        d.out[i] = name

    # ---- what the file declares

    def survey(self):
        """What each declaration answers or takes, the places of its arguments, and the names that change."""
        self.answers, self.taken, self.arguments, self.functions, self.names = {}, {}, {}, {}, {}
        for d in self.file:
            if d.name is None:
                continue
            sign = [t for t in d.tokens[d.start + 1:d.clauses[0]] if not space(t)]
            m = re.match(r"tie\.(Need|InvT|MeasureT)-(\S+)$", sign[1]) if len(sign) > 1 else None
            if m and m.group(1) == "Need" and m.group(2) in self.old.needs:
                self.answers[d.name] = m.group(2)
                self.arguments[d.name] = [self.old.needs[m.group(2)].place]
            elif m and m.group(1) != "Need":
                self.taken[d.name] = {"InvT": "Inv", "MeasureT": "μ"}[m.group(1)] + "-" + m.group(2)
            else:
                self.arguments[d.name], result = self.signature(sign[1:])
                if result and len(self.arguments[d.name]) == 1:
                    self.functions[d.name] = result
        for said, old, pairs in [(a, b, self.needs) for a, b in self.answers.items()] + [(a, b, self.takes) for a, b in self.taken.items()]:
            if said == old and pairs.get(old, old) != old:
                self.names[said] = pairs[old]

    def signature(self, tokens):
        """The place of each argument that is written, or None; and the place that a function gives, or None."""
        parts, depth = [[]], 0
        for t in tokens:
            if t == "unfolding" and depth == 0:
                break
            if t == "→" and depth == 0:
                parts.append([])
                continue
            depth += (t in OPEN) - (t in CLOSE)
            parts[-1].append(t)
        found = []
        for part in parts[:-1]:
            if part[:1] == ["{"]:
                continue
            if part[:1] == ["("] and ":" in part:
                names, kind = part[1:part.index(":")], part[part.index(":") + 1:]
            else:
                names, kind = ["_"], part
            found += [self.place_named(kind)] * len(names)
        return found, self.place_named(parts[-1])

    def place_named(self, tokens):
        m = re.match(r"tie\.(\S+)$", tokens[0]) if tokens else None
        return m.group(1) if m and m.group(1) in self.old.places else None

    # ---- the terms

    def place_term(self, d, i, known):
        """The term at token i, if it is a place: a variable, a function of one or a bracket, and some `.before`."""
        tokens, k, inner = d.tokens, ahead(d.tokens, i), None
        if i >= len(tokens):
            return None
        if tokens[i] in known:
            place, head = known[tokens[i]], i
        elif tokens[i] == "(" or tokens[i] in self.functions and k < len(tokens):
            if tokens[i] != "(" and tokens[k] in known:
                head = k
            else:
                at = i if tokens[i] == "(" else k
                inner = self.place_term(d, ahead(tokens, at), known) if at < len(tokens) and tokens[at] == "(" else None
                if inner is None or ahead(tokens, inner.end) >= len(tokens) or tokens[ahead(tokens, inner.end)] != ")":
                    return None
                head = ahead(tokens, inner.end)
            result = self.functions.get(tokens[i])
            place = (result, self.places.get(result)) if result else (inner.old, inner.new)
        else:
            return None
        end, steps, k = head, 0, ahead(tokens, head)
        while k < len(tokens) and tokens[k] == ".before":
            end, steps, k = k, steps + 1, ahead(tokens, k)
        old = self.old.up(place[0], steps)
        new = self.places.get(old)
        return Term(i, head, end, steps, old, new, self.new.steps(place[1], new) if new and place[1] else None)

    def move(self, d, term, known):
        """Writes a term that is a place for the new walk."""
        tokens, out, k = d.tokens, d.out, ahead(d.tokens, term.end)
        d.followed.update(range(term.head + 1, term.end + 1))
        if term.head > term.start:
            self.terms(d, term.start + 1, term.head + 1, known, tokens[term.start])
        if term.count is None:
            self.say(d, term.start, "%s is not on the way here any more" % term.old if term.old else "there are more `.before` than places")
            return
        if k < len(tokens) and tokens[k] == "." + self.old.places[term.old].own:
            self.rename(d, k, "." + self.new.places[term.new].own)
            self.came(d, k, term)
        if k < len(tokens) and tokens[k] == ".good" and self.old.params != self.new.params:
            self.good(d, k)
        if term.count == term.steps:
            return
        self.moved += 1
        out[term.head + 1:term.end + 1] = [""] * (term.end - term.head)
        out[term.head] += " .before" * term.count
        before = back(tokens, term.start)
        if term.count == 0 and term.head == term.start and before >= 0 and tokens[before] == "(" and k < len(tokens) and tokens[k] == ")":
            out[before] = out[k] = ""

    def came(self, d, i, term):
        """Says so where what an arm bound is counted and has changed."""
        k = ahead(d.tokens, i)
        sides = [w.places[p].sides for w, p in ((self.old, term.old), (self.new, term.new))]
        if k < len(d.tokens) and d.tokens[k] == ".came" and re.sub(r"\d+", "", sides[0]) != re.sub(r"\d+", "", sides[1]):
            self.say(d, i, "what came by an arm has other parts: %s, and had %s" % (sides[1], sides[0]))

    def good(self, d, i):
        """The part of `.good`, token i, that belongs to a parameter."""
        found, k = [], ahead(d.tokens, i)
        while k < len(d.tokens) and d.tokens[k] == ".1":
            found.append(k)
            k = ahead(d.tokens, k)
        name = self.old.params[len(found)] if len(found) < len(self.old.params) else None
        if k >= len(d.tokens) or d.tokens[k] != ".0" or name not in self.new.params:
            self.say(d, i, "`.good` goes by the parameters, which have changed")
            return
        d.out[i + 1:k] = [""] * (k - i - 1)
        d.out[i] += " .1" * self.new.params.index(name) + " "

    def terms(self, d, first, end, known, last=None):
        """Carries the tokens from first to end; `known` has the old and the new place of each variable that is one."""
        tokens, i, scopes = d.tokens, first, []
        while i < end:
            t = tokens[i]
            if space(t):
                i += 1
                continue
            term = self.place_term(d, i, known) if begins_term(last) else None
            if term:
                self.move(d, term, known)
                last, i = tokens[term.end], term.end + 1
                continue
            if t in known:
                self.argument(d, i, *known[t])
            elif t in OPEN:
                scopes.append((t, known))
            elif t in CLOSE:
                while scopes and scopes[-1][0] == "let":
                    scopes.pop()
                if scopes:
                    known = scopes.pop()[1]
            elif t == "let":
                scopes.append(("let", self.bound(d, i, end, known)))
                i = ahead(tokens, i)
            elif t == "in" and scopes and scopes[-1][0] == "let":
                known = scopes.pop()[1]
            elif t in ("λ", "|"):
                known = self.hidden(d, i, end, known)
            elif t == ":" and i < d.clauses[0] and scopes and self.place_named([tokens[ahead(tokens, i)]]):
                place = self.place_named([tokens[ahead(tokens, i)]])
                names = {x: (place, self.places.get(place)) for x in self.since(d, i)}
                known, scopes = {**known, **names}, [(x, {**y, **names}) for x, y in scopes]
            elif t.startswith("tie."):
                i = self.named(d, i, end)
            if t in self.names and t not in known:
                d.out[i] = self.names[t]
            last, i = t, i + 1

    def argument(self, d, i, old, new):
        """A variable that is a place, token i, as an argument by itself."""
        count = self.new.steps(new, self.places.get(old))
        if count is None:
            self.say(d, i, "%s is not on the way here any more" % old)
        elif count:
            d.out[i], self.moved = "(%s%s)" % (d.tokens[i], " .before" * count), self.moved + 1

    def bound(self, d, i, end, known):
        """What is known in the term of the `let` at token i."""
        name, k, depth = ahead(d.tokens, i), i, 0
        while k < end and (depth or d.tokens[k] != "="):
            depth += (d.tokens[k] in OPEN) - (d.tokens[k] in CLOSE)
            k += 1
        term = self.place_term(d, ahead(d.tokens, k), known)
        found = {x: y for x, y in known.items() if x != d.tokens[name]}
        if term and term.new and d.tokens[ahead(d.tokens, term.end)] == "in":
            found[d.tokens[name]] = (term.old, term.new)
        return found

    def hidden(self, d, i, end, known):
        """What is still known where a λ or a case at token i binds names."""
        names, k = set(), ahead(d.tokens, i)
        while k < end and d.tokens[k] != "↦":
            names.add(d.tokens[k].rstrip("."))
            if d.tokens[i] == "λ" and d.tokens[k].endswith("."):
                break
            k = ahead(d.tokens, k)
        return {x: y for x, y in known.items() if x not in names}

    def since(self, d, i):
        """The words between the bracket before token i and it."""
        found = []
        while i > 0 and d.tokens[i - 1] != "(":
            i -= 1
            found += [] if space(d.tokens[i]) else [d.tokens[i]]
        return found

    def named(self, d, i, end):
        """A name of Tie, and the invariants and measures that it is given."""
        name = d.tokens[i][4:]
        m = re.match(r"(Need|InvT|MeasureT)-(\S+)$", name)
        if m and m.group(1) == "Need" or name in self.old.places:
            old, pairs = (m.group(2), self.needs) if m and name not in self.old.places else (name, self.places)
            later = pairs.get(old)
            if later is None:
                self.say(d, i, "%s is no longer there" % name)
                return i
            self.rename(d, i, "tie." + ("Need-" if pairs is self.needs else "") + later)
            return self.given(d, i, end)
        if m:
            kind = {"InvT": "Inv", "MeasureT": "μ"}[m.group(1)]
            later = self.takes.get("%s-%s" % (kind, m.group(2)))
            if later:
                self.rename(d, i, "tie.%s-%s" % (m.group(1), later.split("-", 1)[1]))
            else:
                self.say(d, i, "the loop %s is no longer there" % m.group(2))
        return i

    def given(self, d, i, end):
        """The invariants and measures after a name of Tie at i, in the new order; the index of the last."""
        tokens, at = d.tokens, i
        for name in self.old.takes:
            k = ahead(tokens, at)
            if k >= end or self.taken.get(tokens[k]) != name:
                return i
            at = k
        if [t for t in tokens[i + 1:at + 1] if not space(t)] != self.all_takes():
            d.out[i + 1:at + 1] = [""] * (at - i)
            d.out[i] += "".join(" " + name for name in self.all_takes())
        return at

    def all_takes(self):
        """The file's names for the invariants and measures of the new walk, in order."""
        back = {self.takes[old]: self.names.get(said, said) for said, old in self.taken.items() if old in self.takes}
        return [back.get(name, name) for name in self.new.takes]

    # ---- declarations

    def binders(self, d, old):
        """What an invariant or a measure binds."""
        before, after, i = self.old.takes[old], self.new.takes[self.takes[old]], d.clauses[0]
        binds, k = [], ahead(d.tokens, i)
        while k < len(d.tokens) and d.tokens[k] != "=":
            binds.append(k)
            k = ahead(d.tokens, k)
        if before == after:
            return
        if len(binds) != len(before):
            self.say(d, i, "it binds %d names, and the old code asks for %d" % (len(binds), len(before)))
            return
        own = {name: d.tokens[x] for name, x in zip(before, binds)}
        used = set(d.tokens[k:]) | set(own.values())
        d.out[i + 1:binds[-1] + 1] = [""] * (binds[-1] - i)
        d.out[i] += "".join(" " + own.get(name, "_" if name in used else name) for name in after)

    def spec(self, d, i):
        """What `tie.spec`, token i, is given, in the new order."""
        tokens, found, k = d.tokens, [], ahead(d.tokens, i)
        gap = "".join(tokens[i + 1:k]) or " "
        while k < len(tokens) and tokens[k] not in CLOSE:
            end = closing(tokens, k) if tokens[k] in OPEN else k
            found.append((k, end))
            k = ahead(tokens, end)
        order, said = self.old.order(), {}
        if len(found) != len(order):
            self.say(d, i, "spec is given %d answers, and the old code asks for %d" % (len(found), len(order)))
            return
        for name, (a, b) in zip(order, found):
            later = self.takes.get(name) if name in self.old.takes else self.needs.get(name)
            said[later] = "".join(self.names.get(t, t) for t in tokens[a:b + 1])
        words = [said[name] if name in said else self.fresh[name] for name in self.new.order()]
        if ["".join(tokens[a:b + 1]) for a, b in found] != words:
            end = found[-1][1] if found else i
            d.out[i + 1:end + 1] = [""] * (end - i)
            d.out[i] += "".join(gap + w for w in words)

    def drop(self):
        """Takes out the answers of needs, and the invariants and measures of loops, that are gone."""
        for d in self.file:
            gone = d.name in self.answers and self.answers[d.name] not in self.needs or d.name in self.taken and self.taken[d.name] not in self.takes
            if gone:
                d.dropped, d.out = True, d.out[d.section():]
                self.notes.append("%s:%d: %s is asked no longer: taken out" % (self.path, d.line, d.name))

    def add(self):
        """Writes an answer for each need, and an invariant and a measure for each loop, that is new: behind what stands before it in `spec`."""
        came = {new: old for pairs in (self.needs, self.takes) for old, new in pairs.items()}
        whose = {old: d for d in self.file for old in [self.answers.get(d.name, self.taken.get(d.name))] if old}
        last = None
        for name in self.new.order():
            if name in came:
                last = whose.get(came[name], last)
                continue
            d = Declaration(self.fresh[name], self.first_answer(name), 0)
            takes = [k for k, x in enumerate(self.file) if x.name in self.taken or x.name in self.new.takes]
            if last in self.file and (name in self.new.takes or self.file.index(last) not in takes):
                at = self.file.index(last)
            else:
                at = takes[-1] if takes else next((k for k, x in enumerate(self.file) if x.name in self.answers), len(self.file) - 1) - 1
            tail = self.file[at].section()
            self.file[at].out, d.out = self.file[at].out[:tail], d.out + self.file[at].out[tail:]
            self.file.insert(at + 1, d)
            last = d

    def first_answer(self, name):
        """The lines for a need or a loop that is new, which are noted."""
        said, where, like = self.fresh[name], "a loop", None
        if name in self.new.takes:
            sort, loop = name.split("-", 1)
            head, term = "abbrev %s : tie.%s-%s" % (said, {"Inv": "InvT", "μ": "MeasureT"}[sort], loop), " ".join(self.new.takes[name]) + " = ?"
        else:
            need, given = self.new.needs[name], "".join(" " + x for x in self.all_takes())
            head, where, term = "%s : tie.Need-%s%s" % (said, name, given), need.at, "%s = %s" % (need.binds, need.answer)
            if need.answer == "?":
                others = [d for d in self.file if not d.dropped] + [d for d in self.file if d.dropped]
                like = next((x for x in [self.answer_like(d, need) for d in others] if x), None)
                term = like[1] if like else "%s = %s" % (need.binds, "search needs" if self.new.takes else "?")
        self.holes = self.holes or term.endswith("= ?")
        answer = "as %s" % like[0] if like else "by `%s`" % term[term.index(" = ") + 3:]
        self.notes.append("%s: new: %s (%s), answered %s" % (self.path, said, where, answer))
        return "%s\n%s%s %s\n\n" % (head, like[2] if like else "", said, term)

    def answer_like(self, d, need):
        """Of the answer of a need of this sort: its name, its term at the new need's place, and what it unfolds. None if it reads another place. A
        need that is asked no longer may have another variable in its name: its statement may have moved."""
        old = self.answers.get(d.name)
        if old is None or len(d.clauses) != 2 or not d.line:
            return None
        if same_need(old, need.name) is None if d.dropped else stem(old) != stem(need.name):
            return None
        copy, before = Declaration(d.name, "".join(d.tokens), d.line), (self.moved, self.renamed, list(self.left))
        first, end = copy.clauses
        variable = ahead(copy.tokens, first)
        known = {copy.tokens[variable]: (self.old.needs[old].place, need.place)}
        equals = next(k for k in range(variable, end) if copy.tokens[k] == "=")
        self.terms(copy, equals + 1, end, known)
        fine = len(self.left) == len(before[2])
        self.moved, self.renamed, self.left = before
        unfolds = re.search(r"^unfolding .*\n", "".join(copy.tokens[:first]), re.M)
        term = "".join(copy.out[first + 1:copy.section()]).strip()
        said = d.name + " was" if d.dropped else self.names.get(d.name, d.name) + " is"
        return (said, term, unfolds.group() if unfolds else "") if fine else None

    def needs_use(self):
        """The line that `search needs` wants, where an answer has it and the file does not."""
        text = "".join(d.text() for d in self.file)
        if "search needs" in text and not re.search(r"use borrow\.Author\.Needs\.\{[^}]*\bneeds\b", text):
            head = self.file[0]
            k = next((k for k, t in enumerate(head.out) if t == "use"), len(head.out))
            head.out.insert(k, NEEDS + "\n")

    def carry(self, text):
        """The file's text for the new code."""
        self.file = declarations(text)
        self.survey()
        words = (set(TOKEN.findall(text)) - set(self.names)) | set(self.names.values())
        self.fresh = {}
        for name in self.new.order():
            if name not in self.needs.values() and name not in self.takes.values():
                self.fresh[name] = name
                while self.fresh[name] in words:
                    self.fresh[name] += "'"
        self.drop()
        for d in self.file:
            if d.name is not None and not d.dropped:
                self.declaration(d)
        self.add()
        self.needs_use()
        return "".join(d.text() for d in self.file)

    def declaration(self, d):
        """One declaration: its signature and its clauses."""
        self.terms(d, d.start, d.clauses[0], {})
        if d.name in self.taken:
            self.terms(d, d.clauses[0], len(d.tokens), {})
            self.binders(d, self.taken[d.name])
            return
        for a, b in zip(d.clauses, d.clauses[1:]):
            self.clause(d, a, b)
        for i, t in enumerate(d.tokens):
            if t == "tie.spec":
                self.spec(d, i)
            elif t == ".before" and i not in d.followed and d.tokens[back(d.tokens, i)] != ".before":
                self.say(d, i, "it is not known what these `.before` stand behind")

    def clause(self, d, a, b):
        """One clause, from token a to b: its arguments that are places, and its term."""
        known, k = {}, ahead(d.tokens, a)
        new = self.new.needs[self.needs[self.answers[d.name]]].place if d.name in self.answers else None
        for place in self.arguments.get(d.name, []):
            while k < b and d.tokens[k] == "{":
                k = ahead(d.tokens, closing(d.tokens, k))
            if k >= b or d.tokens[k] == "=":
                break
            if place and d.tokens[k] not in OPEN:
                known[d.tokens[k]] = (place, new or self.places.get(place))
            k = ahead(d.tokens, closing(d.tokens, k) if d.tokens[k] in OPEN else k)
        d.out[a] = self.names.get(d.tokens[a], d.tokens[a])
        while k < b and d.tokens[k] != "=":
            k = ahead(d.tokens, k)
        self.terms(d, k + 1, b, known)
