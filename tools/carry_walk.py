"""The places and needs of a function's walk, read from what rt writes, and which of them two versions of the code have in common.

A walk is a tree. A place is a record of Lts.antt, such as After-tile-start2: it stands below its `before` and has a field of its own,
here tile-start2. A need stands below the place that its answer is given. tools/carry moves proofs along the pairs that `pairs` finds.
"""
import difflib
import hashlib
import re


class Place:
    """A record of the walk: the record before it, its own field, what binds it (a sum), and of arms that meet the parts of each side."""

    def __init__(self, name, before, own, what="", sides=""):
        self.name, self.before, self.own, self.what, self.sides = name, before, own, what, sides


class Need:
    """A need: the place of its context, where in the source it is asked, what its answer binds, and the answer that rt writes for it."""

    def __init__(self, name, place, at="-", binds="c", answer="?"):
        self.name, self.place, self.at, self.binds, self.answer = name, place, at, binds, answer


class Walk:
    """A function: its parameters, places and needs in the order of Lts.antt, a sum of that file, and, once the lines are read that rt prints for
    a function with no proof (`asked`), the names that each invariant and measure binds."""

    def __init__(self, function, total=""):
        self.function, self.total, self.asked = function, total, False
        self.params, self.places, self.needs, self.takes, self.sides = [], {}, {}, {}, {}

    def field(self, record, name, kind, lines, i):
        """Takes in a field of a record of Lts.antt, which stands in line i."""
        place = self.places.get(record)
        if record == "Args":
            self.params.append(name)
        elif name == "came" and record.endswith("·own"):
            self.sides[record[:-4]] = sides_of(block(lines, i))
        elif place and name == "before":
            place.before = kind.split()[0]
        elif place and place.before and place.own == "-":
            place.own = name

    def up(self, place, steps):
        for _ in range(steps):
            place = self.places[place].before if place in self.places else None
        return place if place in self.places else None

    def steps(self, place, earlier):
        """How many `before` lead from a place to an earlier one; None if none do."""
        count = 0
        while place in self.places:
            if place == earlier:
                return count
            place, count = self.places[place].before, count + 1
        return None

    def loops(self):
        return [name for name in self.places if name.startswith("At-") and not name.startswith("At-match")]

    def order(self):
        """What `spec` is given, in order."""
        return list(self.takes) + list(self.needs)


# ---- reading what rt writes

def block(lines, i):
    """The lines from i to the next empty one, as one text."""
    end = i
    while end < len(lines) and lines[end].strip():
        end += 1
    return " ".join(x.strip() for x in lines[i:end])


def short_sum(text):
    return hashlib.sha256(text.encode("utf-8")).hexdigest()[:8]


def told(text, params):
    """A sum of what a rule or a call is about, without what a new statement renumbers: locals, states, steps and callees."""
    text = re.sub(r"\b(T|O|W|m|s|at)\d+\b|·\d+|'\d*|claims· \.\d+|\bbs\b", "", text)
    text = re.sub(r"\b\d+\b", lambda m: m.group() if int(m.group()) <= params else "#", text)
    text = re.sub(r"\(Row\.hd.*?\)+", "", text)
    return short_sum(" ".join(text.split()))


def sides_of(text):
    """Of the type of `came`, the parts of its sides in order: what an arm bound, by name, and `=` for an equation."""
    found = re.finditer(r"\(*([^\s(]+) : \S+·own|Path'\._(≡)_|(⊎)_", text)
    return ",".join(m.group(1) or ("=" if m.group(2) else "⊎") for m in found)


def bound_by(lines):
    """What binds each place, as text: the rule that gives something, or the call."""
    rules, found, own = {}, {}, None
    for i, line in enumerate(lines):
        m = re.match(r"\s+(s\d+) =", line)
        if m:
            rules[m.group(1)] = block(lines, i).split(" = ", 1)[-1]
        m = re.match(r"\s+(\S+)·own = Called", line)
        if m:
            found[m.group(1)] = block(lines, i).split(" (m")[0]
        m = re.match(r"\s+pub record (\S+?)(·own)? :", line)
        own = (m.group(1) if m.group(2) else None) if m else own
        m = re.match(r"\s+pub given : (s\d+)", line)
        if m and own:
            found[own] = m.group(1)
    return {place: rules.get(text, text) for place, text in found.items()}


def read_lts(function, text):
    """The walk of an Lts.antt."""
    walk, lines, current = Walk(function, short_sum(text)), text.split("\n"), None
    for i, line in enumerate(lines):
        m = re.match(r"\s+pub record (\S+) :", line)
        if m:
            current = m.group(1)
            if current not in ("Args", "Ranges") and not current.endswith("·own"):
                walk.places[current] = Place(current, None, "-", "-", walk.sides.get(current, "-"))
            continue
        m = re.match(r"\s+pub (\S+) : (.*)", line)
        if m and current:
            walk.field(current, m.group(1), m.group(2), lines, i)
            continue
        m = re.match(r"\s+Need-(\S+) =", line)
        if m:
            current = None
            walk.needs[m.group(1)] = Need(m.group(1), re.search(r"\(c : (\S+?)\)", block(lines, i)).group(1))
    for place, what in bound_by(lines).items():
        walk.places[place].what = told(what, len(walk.params))
    return walk


def read_skeleton(walk, lines):
    """Adds what the lines say that rt prints for a function with no proof: where a need is asked, and what is bound."""
    at, walk.asked = "-", True
    for k, line in enumerate(lines):
        m = re.match(r"-- (\S+\.rt:\d+:\d+)$", line)
        at = m.group(1) if m else at
        m = re.match(r"((?:Inv|μ)-\S+)((?: \S+)+?) =(.*)$", line)
        if m:
            walk.takes[m.group(1)] = m.group(2).split()
        m = re.match(r"(\S+) (c(?: κs)?) =(.*)$", line)
        if m and m.group(1) in walk.needs:
            need = walk.needs[m.group(1)]
            answer = m.group(3).strip() or lines[k + 1].strip()
            need.at, need.binds, need.answer, at = at, m.group(2), answer, "-"


def skeletons(printed):
    """Of what a check prints, the lines for each proof file that is missing, by the function's path below proofs/."""
    found, lines, i = {}, printed.split("\n"), 0
    while i < len(lines):
        m = re.match(r"help: write \S*/proofs/(\S+)/Proof\.antt with these lines", lines[i])
        i += 1
        if not m:
            continue
        body = found[m.group(1)] = []
        while i < len(lines) and (lines[i].startswith("    ") or not lines[i].strip()):
            body.append(lines[i][4:])
            i += 1
    return found


# ---- as a text, for target/ and for the tests

def written(walks, files):
    """The walks of a crate and its source files, as a text."""
    out = []
    for name in sorted(files):
        out.append("file " + name)
        out += ["|" + line for line in files[name].split("\n")]
    for walk in walks.values():
        out.append("function %s %s %s" % (walk.function, walk.total, "asked" if walk.asked else "-"))
        out.append(" ".join(["params"] + walk.params))
        out += [" ".join(["takes", name] + binds) for name, binds in walk.takes.items()]
        out += ["place %s %s %s %s %s" % (p.name, p.before or "-", p.own, p.what, p.sides) for p in walk.places.values()]
        out += ["need %s %s %s %s = %s" % (n.name, n.place, n.at, n.binds, n.answer) for n in walk.needs.values()]
    return "\n".join(out) + "\n"


def read(text):
    """The walks and the source files of such a text."""
    walks, files, walk, name = {}, {}, None, None
    for line in text.split("\n"):
        if line.startswith("|"):
            files[name].append(line[1:])
            continue
        word, _, rest = line.partition(" ")
        if word == "file":
            name, files[rest] = rest, []
        elif word == "function":
            function, total, asked = rest.split(" ")
            walk = walks[function] = Walk(function, total)
            walk.asked = asked == "asked"
        elif word == "params":
            walk.params = rest.split()
        elif word == "takes":
            walk.takes[rest.split()[0]] = rest.split()[1:]
        elif word == "place":
            place, before, own, what, sides = rest.split(" ")
            walk.places[place] = Place(place, None if before == "-" else before, own, what, sides)
        elif word == "need":
            head, _, answer = rest.partition(" = ")
            need, place, at, binds = head.split(" ", 3)
            walk.needs[need] = Need(need, place, at, binds, answer)
    return walks, {name: "\n".join(lines) for name, lines in files.items()}


# ---- which places and needs are the same

def same_lines(old, new):
    """From lines of the old files, by file and number, to the same lines of the new ones."""
    found = {}
    for name in old:
        if name in new:
            a, b = ([line.strip() for line in text.split("\n")] for text in (old[name], new[name]))
            for i, j, n in difflib.SequenceMatcher(None, a, b, autojunk=False).get_matching_blocks():
                for k in range(n):
                    found[name, i + k + 1] = (name, j + k + 1)
    return found


class Tree:
    """A walk's nodes in the order that Zhang and Shasha's distance wants, children from the last to the first: then few subtrees are long."""

    def __init__(self, walk):
        below, known = {name: [] for name in walk.places}, {}
        items = [(p.before, ("place", p.name)) for p in walk.places.values() if p.before]
        self.walk, self.nodes, self.first, self.at = walk, [], [], {}
        for name, need in walk.needs.items():
            known.setdefault(need.place, []).append(("need", name))
            if name.endswith("-requires") or "-requires-" in name:
                self.at[need.place, re.sub(r"-requires(-\d+)?$", "", name)] = need.at
        for before, item in items:
            below[before].append(item)
        for place, needs in known.items():
            below[place] = needs + below[place]
        self.below = below
        stack = [(("place", "Start"), False)]
        firsts = {}
        while stack:
            node, done = stack.pop()
            children = list(reversed(below[node[1]])) if node[0] == "place" else []
            if not done:
                stack.append((node, True))
                stack += [(child, False) for child in reversed(children)]
                continue
            firsts[node] = firsts[children[0]] if children else len(self.nodes)
            self.nodes.append(node)
            self.first.append(firsts[node])

    def where(self, node):
        """The line of the source that asks a need, or calls what a place is after."""
        kind, name = node
        if kind == "need":
            at = self.walk.needs[name].at
        else:
            place = self.walk.places[name]
            at = self.at.get((place.before, re.sub(r"\d+$", "", place.own)), "-")
        if at == "-":
            return None
        file, line, _ = at.rsplit(":", 2)
        return file, int(line)

    def roots(self):
        """The last node of each first leaf: the subtrees whose distances are to be computed."""
        return sorted({leaf: i for i, leaf in enumerate(self.first)}.values())


def stem(name):
    return re.sub(r"-?\d+", "", name)


def kind(place):
    """What sort of place it is: Start, At, In, After, Left, Then, Else, Joined; after a test apart from the others."""
    return re.match(r"[A-Z][a-z]*", place.name).group() + ("-test" if place.own.endswith("-test") else "")


def same_place(p, q):
    """What it costs to take one place for the other; None where they cannot be the same. A name may change where what is bound is the same."""
    if stem(p.name) == stem(q.name) and stem(p.own) == stem(q.own):
        return (0.0 if p.name == q.name else 0.01) + (0.0 if p.what == q.what else 0.3)
    return 0.8 if kind(p) == kind(q) and p.what == q.what else None


def same_need(name, later):
    """The same for the names of two needs. The variable in a name may change."""
    if stem(name) == stem(later):
        return 0.0 if name == later else 0.01
    called = any(re.search(r"-requires(-\d+)?$", x) for x in (name, later))
    return 0.8 if not called and name.split("-")[0] == later.split("-")[0] else None


def cost(a, x, b, y, lines, reached):
    """What it costs to take node x of one tree for node y of the other; None where they cannot be the same."""
    if x[0] != y[0]:
        return None
    price = same_need(x[1], y[1]) if x[0] == "need" else same_place(a.walk.places[x[1]], b.walk.places[y[1]])
    u, v = a.where(x), b.where(y)
    if price is None or not u or not v:
        return price
    if u in lines or v in reached:
        return price if lines.get(u) == v else None
    return price + 0.2


def forest(a, b, i, j, trees, price):
    """The distances between what stands up to each node in the subtrees of i and of j."""
    p, q = a.first[i], b.first[j]
    table = [[0.0] * (j - q + 2) for _ in range(i - p + 2)]
    for s in range(1, i - p + 2):
        table[s][0] = float(s)
    for t in range(1, j - q + 2):
        table[0][t] = float(t)
    for s in range(1, i - p + 2):
        x, row, above = p + s - 1, table[s], table[s - 1]
        for t in range(1, j - q + 2):
            y = q + t - 1
            best = min(above[t], row[t - 1]) + 1
            if a.first[x] == p and b.first[y] == q:
                own = price(x, y)
                if own is not None and above[t - 1] + own < best:
                    best = above[t - 1] + own
                trees[x, y] = best
            else:
                best = min(best, table[a.first[x] - p][b.first[y] - q] + trees[x, y])
            row[t] = best
    return table


def pairs(old, new, old_files, new_files):
    """The places and the needs that two walks have in common: two dictionaries, from old names to new ones."""
    a, b = Tree(old), Tree(new)
    lines = same_lines(old_files, new_files)
    reached, known, trees = set(lines.values()), {}, {}

    def price(x, y):
        if (x, y) not in known:
            known[x, y] = cost(a, a.nodes[x], b, b.nodes[y], lines, reached)
        return known[x, y]

    for i in a.roots():
        for j in b.roots():
            forest(a, b, i, j, trees, price)
    found, todo = {"place": {}, "need": {}}, [(len(a.nodes) - 1, len(b.nodes) - 1)]
    while todo:
        i, j = todo.pop()
        table, p, q = forest(a, b, i, j, trees, price), a.first[i], b.first[j]
        s, t = i - p + 1, j - q + 1
        while s and t:
            x, y = p + s - 1, q + t - 1
            if abs(table[s][t] - table[s - 1][t] - 1) < 1e-9:
                s -= 1
            elif abs(table[s][t] - table[s][t - 1] - 1) < 1e-9:
                t -= 1
            elif a.first[x] == p and b.first[y] == q:
                found[a.nodes[x][0]][a.nodes[x][1]] = b.nodes[y][1]
                s, t = s - 1, t - 1
            else:
                todo.append((x, y))
                s, t = a.first[x] - p, b.first[y] - q
    add_moved(old, new, found["place"])
    return found["place"], found["need"]


def add_moved(old, new, places):
    """Adds the places that a statement took along to where it stands now: where one place alone is gone and one alone is new that bind the same."""
    gone = [p for p in old.places.values() if p.name not in places and p.what != "-"]
    fresh = [q for q in new.places.values() if q.name not in places.values()]
    for p in gone:
        later = [q for q in fresh if moved(p, q)]
        if len(later) == 1 and not any(moved(other, later[0]) for other in gone if other is not p):
            places[p.name] = later[0].name


def moved(p, q):
    return stem(p.name) == stem(q.name) and stem(p.own) == stem(q.own) and p.what == q.what
