#!/usr/bin/env python3
"""Writes the walks of the calls over records that are structs: crates/CALL_call/proofs/CALL/Proof.antt.

usage: python3 -B tools/call_walks.py     (from anywhere)

A walk goes through the call's MIR statement by statement; each step names what it uses by its place in the list of what is owned. The
script keeps that list by name, and so knows the places.
"""
import os
import re

ROOT = os.path.join(os.path.dirname(os.path.abspath(__file__)), "..", "crates")
SUB = str.maketrans("0123456789", "₀₁₂₃₄₅₆₇₈₉")
COUNT = "1497"     # a record more than the largest system has


def sub(i):
    return str(i).translate(SUB)


def nested(xs, end="tt"):
    s = end
    for x in reversed(xs):
        s = "(%s, %s)" % (x, s)
    return s


def exit_steps(walk, items, last, lengths, lent):
    """How a walk leaves by an exit: the items that it holds, the last contents and lengths of its parameters, and those that it was lent to write."""
    steps = ["      qed W (%s) ∵\n      suffices ! _ (ends-at 𝓤 H A f.ended stayed (f.clauses 𝓤 H A mem run) W %s v r %s %s) $ says ! e $\n" % (items, walk.bound, nested(last), nested(lengths))]
    steps.append("      nothing ! $ %sframe ! $\n      nothing ! $ " % "".join("move ! (%d ∷ 0 ∷ []) $ join ! $ " % i for i in range(len(walk.indices), 0, -1)))
    left = len(lent)
    for p in reversed(walk.params):
        if any(q is p for q in lent):
            steps.append("move ! (%d ∷ 0 ∷ []) $ fjoin ! $ " % left)
            left -= 1
        else:
            steps.append("nothing ! $ fjoin ! $ ")
    return "".join(steps) + "frame ! $ done !\n\n"


def seps(xs):
    return xs[0] if len(xs) == 1 else "(sep 𝓤 %s %s)" % (xs[0], seps(xs[1:]))


def product(xs, end="Unit {0}"):
    s = end
    for x in reversed(xs):
        s = "(%s × %s)" % (x, s)
    return s[1:-1] if s.startswith("(") else s


# ---- parameters: how each is owned, passed on and given up

class Param:
    def __init__(self, name, kind, mut=False):
        self.name, self.kind, self.mut = name, kind, mut


def sizes():
    return Param("z", "sizes")


def matrix(mut):
    return Param("matrix", "slice", mut)


def lists(mut):
    return Param("lists", "slice", mut)


def records(mut):
    return Param("records", "slice", mut)


def workers():
    return Param("wk", "workers")


def number(name, ty):
    return Param(name, ty)


def right():
    return Param("right", "slice", False)


def answers():
    return Param("answers", "slice", True)


# of each slice: its index (the array of copies has 5), its elements, their type, its list, what it owns, its reference, and its list at the end
SLICE = {
    "matrix": ("₁", "Float", "f64", "ms", "Mat", "m", "ms′"),
    "lists": ("₂", "ℕ", "u8", "ls", "Lis", "ll", "ls′"),
    "records": ("₃", "TaskRecord", "T.the-row", "ys", "Rec", "(rs γ₃)", "zs"),
    "right": ("₄", "Float", "f64", "bs", "Rig", "rr", None),
    "answers": ("₆", "Float", "f64", "us", "Ans", "aa", "us′"),
}
LIFETIME = {"₁": 0, "₂": 1, "₃": 2, "₄": 3, "₆": 4}


def nth(x, i):
    """component i of a nested tuple"""
    return x + " .1" * i + " .0"


class Walk:
    """One walk: the list of what is owned by name, and the text so far."""

    def __init__(self):
        self.ctx = []
        self.out = []

    def emit(self, s):
        self.out.append(s)

    def at(self, name):
        return self.ctx.index(name)

    def move(self, *names):
        self.emit("move ! (%s ∷ []) $ " % " ∷ ".join(str(self.at(n)) for n in names))
        self.ctx = list(names) + [x for x in self.ctx if x not in names]

    def keep(self, names):
        self.emit("keep ! (%s ∷ []) $ " % " ∷ ".join(str(self.at(n)) for n in names))
        self.ctx = list(names)

    def split(self, a, b, f=""):
        self.emit("%ssplit ! $ " % f)
        self.ctx[0:1] = [a, b]

    def split3(self, a, b, c):
        self.emit("split3 ! $ ")
        self.ctx[0:1] = [a, b, c]

    def join(self, name):
        self.emit("join ! $ ")
        self.ctx[0:2] = [name]

    def use(self, k, name, item, by):
        self.emit("use%d W (%s) (%s) $ " % (k, item, by))
        self.ctx[0:k] = [name]

    def front(self, name, s):
        self.emit(s)
        self.ctx.insert(0, name)

    def apart(self, name, parts):
        """what stands in front as one comes apart"""
        while len(parts) > 1:
            if self.at(name) != 0:
                self.move(name)
            rest = parts[2:]
            if len(parts) == 2:
                self.split(*parts)
            else:
                self.split3(parts[0], parts[1], name if len(rest) > 1 else rest[0])
            parts = rest

    def passes(self, name):
        """an argument joins those after it"""
        self.move(name, "all")
        self.emit("fjoin ! $ ")
        self.ctx[0:2] = ["all"]

    def gone(self, s):
        self.emit(s)
        del self.ctx[0]

    def line(self):
        self.emit("\n        ")

    def leaves(self, top):
        """the function returns, and its locals are given back"""
        self.emit("returns ! (look ! %d refl) $ " % self.at("L0"))
        for i in range(top + 1):
            self.emit("forget ! %d refl $ " % self.at("L%d" % i))
        self.line()
        for i in range(top + 1):
            self.move("L%d" % i, "D%d" % i)
            self.gone("free1 ! $ ")
            del self.ctx[0]
        self.emit("free0 ! $ ")
        self.line()

    def text(self):
        """the walk, with the parentheses closed that are open at its end"""
        body = "".join(self.out)
        bare = re.sub(r"--[^\n]*", "", body)
        return body + ")" * (bare.count("(") - bare.count(")"))

    def look(self, i):
        return "(load ! (from ! (stop !)) (look ! %d refl))" % self.at("L%d" % i)

    def opds(self, xs):
        s = "(no-more !)"
        for x in reversed(xs):
            s = "(and-then ! %s %s)" % (x if isinstance(x, str) else self.look(x), s)
        return s

    def slice_to(self, ref, dst, src, room):
        self.emit("assigns ! (addr ! (from ! (fld ! refl (hop ! (look-in ! %d (sub ! 0 refl (all-of !))) (stop !))))) (from ! (stop !)) (init ! %d refl (tt, tt)) $ " % (self.at("L%d" % src), self.at("L%d" % ref)))
        self.line()
        self.emit("assigns ! (agg ! (and-then ! %s (and-then ! (load ! (from ! (fld ! refl (stop !))) (look-in ! %d (sub ! 1 refl (all-of !)))) (no-more !)))) (from ! (stop !)) (init ! %d refl (tt, (tt, (record { fits = %s .0 }, tt)))) $ " % (self.look(ref), self.at("L%d" % src), self.at("L%d" % dst), room))
        self.line()

    def array_to(self, ref, dst):
        self.emit("assigns ! (addr ! (from ! (stop !))) (from ! (stop !)) (init ! %d refl (tt, tt)) $ " % self.at("L%d" % ref))
        self.emit("assigns ! (agg ! (and-then ! %s (and-then ! (big ! (record { fits = room .0 })) (no-more !)))) (from ! (stop !)) (init ! %d refl (tt, (tt, (record { fits = room .0 }, tt)))) $ " % (self.look(ref), self.at("L%d" % dst)))
        self.line()


def callee(path, n):
    return "use %s as %s\nuse %s.Symbol as %s-def\nuse %s.Symbol.{name as #%s}\nuse %s.Met as %s-thm\n" % (path, n, path, n, path, n, path, n)


def uses_of(walk, more=""):
    """the lines of call_walks.uses, and of more, each with what the walk names"""
    words = set(re.findall(r"[^\s(){}.,;]+", re.sub(r"--[^\n]*", "", walk)))
    with open(os.path.join(os.path.dirname(os.path.abspath(__file__)), "call_walks.uses"), encoding="utf-8") as file:
        uses = file.read() + more
    lines = []
    for line in uses.splitlines(keepends=True):
        module, brace, names = line.rstrip("}\n").partition("{")
        listed = [x for x in names.split(", ") if x.split(" as ")[-1].strip("_") in words]
        if listed:
            lines.append(module + "{" + ", ".join(listed) + "}\n")
        elif not brace and module.split(" as ")[-1] in words:
            lines.append(line)
    return "".join(lines)


def theorem(spec, slices, vals, tells, goes, actuals, cited, symbol):
    """the walk as the function's theorem; `cited` has the callees' contracts and short names, `symbol` how the code names them"""
    known = " ".join("(known-%s : Triple 𝓤 (𝓣 .C #%s) (%s 𝓤 H A mem run))" % (n, n, c) for c, n in cited)
    code = "(WpFn 𝓤 H (𝓣 .C) (𝓣 .Λ) code.function)"
    s = ["module _ {M : Type 1} (𝓤 : URA M) (H : Heap 𝓤) (A : Atoms 𝓤) (W : Given 𝓤 H A) (mem : Memory → SProp 𝓤) (run : Routine → Fun 𝓤) (𝓣 : Tables 𝓤 H) %s where\n" % known]
    s.append("  walks : Walks 𝓤 H A f.ended stayed %s (f.clauses 𝓤 H A mem run)\n  walks = walked 𝓤 H A f.ended stayed (f.clauses 𝓤 H A mem run) %s (λ κs. %s)\n      (λ κs. %s)\n" % (code, code, nested(vals), nested(tells)))
    s.append("      (λ κs qs bounds a g are. via 𝓤 _ (fst∗ 𝓤 _ (emp 𝓤)) (walk 𝓤 H A W mem run %s\n      %s (𝓣 .C) (𝓣 .Λ) (fmOf 𝓤 H (W .laws) 𝓣) %s))\n\n" % (" ".join("(%s)" % nth(x, i) for x in ("κs", "qs") for i in range(len(slices))), " ".join(actuals), " ".join("known-" + n for _, n in cited)))
    s.append("  goes : AllGo 𝓤 H A W %d (f.signature .params) (f.ended .kept) stayed\n  goes = %s\n\n" % (len(slices), nested(goes)))
    s.append("  meets : Meets 𝓤 H A f.signature %s (f.spec 𝓤 H A mem run)\n  meets = walk-meets 𝓤 H A f.ended stayed W goes (f.clauses 𝓤 H A mem run) %s (WpFn-mono 𝓤 H (W .laws) 𝓣 code.function) walks\n\n" % (code, code))
    s.append("pub %s-spec : {M : Type 1} → stated.statement M\nunfolding code.routine tablesOf\n%s-spec 𝓤 H 𝓜 𝓖 𝓡 =\n    entered 𝓤 H (tripleOf 𝓤 H (𝓖 .A) f.signature (f.spec 𝓤 H (𝓖 .A) (𝓜 .mem) (𝓡 .run)))\n    (tables 𝓤 H 𝓜 𝓡 code.env .C) (tables 𝓤 H 𝓜 𝓡 code.env .Λ) #f code.function (code.unfolded 𝓤 H 𝓜 𝓡)\n    (meets 𝓤 H (𝓖 .A) (givenOf 𝓤 H 𝓜 𝓖) (𝓜 .mem) (𝓡 .run) (tablesOf 𝓤 H 𝓜 (tables 𝓤 H 𝓜 𝓡 code.env))\n" % (spec, spec))
    s.append("\n".join("    (cited 𝓤 H (%s 𝓤 H (𝓖 .A) (𝓜 .mem) (𝓡 .run)) 𝓜 𝓡 code.env #%s %s-def.routine code.calls-%s (%s-thm.met 𝓤 H 𝓜 𝓖 𝓡))" % (c, n, n, symbol[n], n) for c, n in cited) + ")\n")
    return "".join(s)


def save(root, crate, function, text):
    """writes a proof in the layout of `rt fmt`: no blanks at a line's end, and one between words"""
    folder = os.path.join(root, crate, "proofs", function)
    os.makedirs(folder, exist_ok=True)
    text = re.sub(r"(?<=\S) +", " ", text).replace(" \n", "\n").replace(" )", ")")
    with open(os.path.join(folder, "Proof.antt"), "w", encoding="utf-8") as file:
        file.write(text)


TYPES = {"sizes": "Sizes", "workers": "Workers", "usize": "ℕ", "u64": "ℕ"}
CALL_ARGS = {"lk": "(length ys, tt)", "pt": "(p, (n, tt))", "th": "(wk, (w, tt))"}


class Call:
    """The proof of one call: its sections in the order in which they stand in it. Each adds to `s`, and those of the walk to `g`."""

    def __init__(self, call):
        self.call, self.name, self.params, self.reply = call, call["name"], call["params"], call["reply"]
        self.slices = [p for p in self.params if p.kind == "slice"]
        self.muts = [p for p in self.slices if p.mut]
        self.has_store, self.uses_past, self.held = call["store"] is not None, call["store"] == "one", call.get("held", False)
        # a list for each use of the parameters
        self.arg_type, self.arg, self.vals_, self.vals_fn, self.tells_fn = [], [], [], [], []
        self.stays, self.goes, self.rows, self.mod_params, self.actuals = [], [], [], [], []

    def owns_slice(self, p, path):
        """a slice: how it is passed, owned and given up"""
        k, el, ty, xs, _, ref, _ = SLICE[p.name]
        js = LIFETIME[k]
        self.arg_type.append("RefT (List %s)" % el)
        self.arg.append(ref)
        self.vals_.append("s%s ∷ []" % k)
        self.vals_fn.append("slice-vals")
        kind = "MutSlice" if p.mut else "ShrSlice"
        self.tells_fn.append("%s-slice-tells (named %d) (%s) %s" % ("mut" if p.mut else "shr", js, nth("κs", js), ty))
        if p.mut:
            self.stays.append("gave-slice (%d ∷ []) tt (plain (λ _. %s))" % (js, ty))
            self.goes.append("goes-gave-slice 𝓤 H A W %d %d tt (plain (λ _. %s))" % (len(self.slices), js, ty))
        else:
            slot = "(shrSliceOf (%d ∷ []) tt (plain (λ _. %s)))" % (js, ty)
            self.stays.append("stay-dropped %s yes" % slot)
            self.goes.append("goes-dropped 𝓤 H A W %d %s yes (λ κs x f. refl)" % (len(self.slices), slot))
        self.rows.append("%s (named %d) κ%s %s" % (kind, js, k, ty))
        self.mod_params.append("(b%s o%s : ℕ) (γ%s : GName) (%s : List %s) (room%s : Room %s (length %s))" % (k, k, k, xs, el, k, ty, xs))
        self.actuals.append("(a%s .ptr .0) (a%s .ptr .1) (a%s .name) (a%s .now) (are%s .0 .1)" % ((path,) * 5))

    def owns_value(self, p, path):
        """sizes, workers or a number: how they are passed, owned and given up"""
        self.arg_type.append(TYPES[p.kind])
        self.arg.append(p.name)
        if p.kind == "sizes":
            self.vals_.append("LL.vals Sz.the-type Sz′.the-laws z")
            self.vals_fn.append("LL.vals Sz.the-type Sz′.the-laws")
            self.tells_fn.append("LL.tells Sz.the-type Sz′.the-laws")
            slot = "(plain (λ _. Sz.the-row))"
            self.rows.append("Sz.the-row")
            self.mod_params.append("(z : Sizes) (z-is : Is Sz.the-row z (LL.vals Sz.the-type Sz′.the-laws z))")
            self.actuals.append("(a%s) (are%s)" % (path, path))
        elif p.kind == "workers":
            self.vals_.append("LL.vals Wk.the-type Wk′.the-laws wk")
            self.vals_fn.append("LL.vals Wk.the-type Wk′.the-laws")
            self.tells_fn.append("LL.tells Wk.the-type Wk′.the-laws")
            slot = "(plain (λ _. Wk.the-row))"
            self.rows.append("Wk.the-row")
            self.mod_params.append("(wk : Workers) (wk-is : Is Wk.the-row wk (LL.vals Wk.the-type Wk′.the-laws wk))")
            self.actuals.append("(a%s) (are%s)" % (path, path))
        else:
            self.vals_.append("vint w64 %s ∷ []" % p.name)
            self.vals_fn.append("uint-vals w64")
            self.tells_fn.append("uint-tells w64")
            slot = "(plain (λ _. %s))" % p.kind
            self.rows.append(p.kind)
            self.mod_params.append("(%s : ℕ) (%s-fits : %s < 2 ^ 64)" % (p.name, p.name, p.name))
            self.actuals.append("(a%s) (are%s .1)" % (path, path))
        self.stays.append("stay-dropped %s yes" % slot)
        self.goes.append("goes-dropped 𝓤 H A W %d %s yes (λ κs x f. refl)" % (len(self.slices), slot))

    def owns(self):
        """each parameter's lists of words, and the values passed"""
        passed = []
        for j, p in enumerate(self.params):
            path = " .1" * j + " .0"
            if p.kind == "slice":
                self.owns_slice(p, path)
                passed.append("s" + SLICE[p.name][0])
            else:
                self.owns_value(p, path)
                passed.append({"sizes": "zv", "workers": "wv"}.get(p.kind, "vint w64 " + p.name))
        self.passed = " ∷ ".join(passed) + " ∷ []"

    def lends(self):
        """what is owned at the start, and what the part gets: the flat slice and n stand where the records stood"""
        # the part's parameters: the flat slice and n stand where the records stood
        self.part_args = ["z", "m", "ll", "(fl l ε X)", "n", "wk"] + self.arg[5:]
        self.part_vals = ["LL.vals Sz.the-type Sz′.the-laws z", "s₁ ∷ []", "s₂ ∷ []", "s₅ l ∷ []", "vint w64 n ∷ []", "LL.vals Wk.the-type Wk′.the-laws wk"] + self.vals_[5:]
        self.mat, self.lis = self.params[1], self.params[2]
        self.more = [p for p in self.slices if p.name in ("right", "answers")]
        self.ans = any(p.name == "answers" for p in self.more)
        self.indices = [SLICE[p.name][0] for p in self.slices]
        self.lifetimes = nested(["κ" + k for k in self.indices])
        self.shares = nested(["q" + k for k in self.indices])
        self.tokens = ["‵ (flft κ%s q%s)" % (k, k) for k in self.indices]
        # the part's tokens: the array's stands where the records' stood
        self.part_tokens = ["‵ (flft (ν ∷ []) fullShare)" if k == "₃" else t for k, t in zip(self.indices, self.tokens)]
        self.part_lifetimes = nested(["ν ∷ []" if k == "₃" else "κ" + k for k in self.indices])
        self.part_shares = nested(["fullShare" if k == "₃" else "q" + k for k in self.indices])
        self.part_names = ["ν" if k == "₃" else "κ" + k for k in self.indices]
        self.part_borrows = ["Mat", "Lis"] + [SLICE[p.name][4] for p in self.more]
        self.ms2 = "ms′" if self.mat.mut else "ms"
        self.ls2 = "ls′" if self.lis.mut else "ls"
        self.extra = [p.name for p in self.params[5:]]
        self.reply_mods = ("" if self.has_store else "use denote.Enum.Laws as EL\n") + "use Rattle·model.proofs.%s as Rp\nuse Rattle·model.proofs.%s.Laws as Rp′\n" % (self.reply, self.reply)
        said_of = self.call["said"]          # what the call's definition is applied to
        # with answers, the call's definition says what is left in them, and is told the right side and the answers last
        said = (lambda r: "record { answer = %s; left = us′ }" % r) if self.ans else (lambda r: r)
        self.told_too = "".join(" " + SLICE[p.name][3] for p in self.more)
        self.part_fact = lambda r, m_, l_, x_: ("(record { answer = %s .answer; left = allLent %s %s (upTo n %s) (%s .workers) } ≡ %s (allLent ms ls (upTo n X) wk)) × OthersKept wk (%s .workers)" % (r, m_, l_, x_, r, said_of, r)) if self.has_store else "%s ≡ %s (allLent ms ls (upTo n X) wk)%s" % (said(r), said_of, self.told_too)
        self.whole_fact = lambda r, m_, l_, y_: ("(record { answer = %s .answer; left = whole %s %s %s (%s .workers) } ≡ %s (whole ms ls ys wk)) × OthersKept wk (%s .workers)" % (r, m_, l_, y_, r, said_of, r)) if self.has_store else "%s ≡ %s (whole ms ls ys wk)%s" % (said(r), said_of, self.told_too)

    def head(self):
        """what the walk uses, and the contracts that it cites"""
        self.s = []
        self.s.append("-- `%s_call::%s` meets its contract: a walk of its MIR. The local array is lent to `load` beside the records, to `%s_part` beside the %s%s, each time for a lifetime that is made for the call. Written by tools/call_walks.py.\n-- Assumes nothing.\n" % (self.name, self.name, self.name, "matrix, the lists, the right side and the answers" if self.ans else "matrix and the lists", ", and to `store` beside the records" if self.has_store else ""))
        self.s.append(None)      # call_walks.uses, once the walk is written
        self.s.append("use Rattle·model.specs.declared.%s.{%s}\n" % (self.reply, self.reply) + self.reply_mods)
        self.s.append("use Rattle·model.specs.%s.{%sCall}\n" % (self.call.get("spec", "Refusal"), self.name))
        self.s.append("use Rattle·copies.proofs.%s.{%s}\n" % (self.call["laws"], self.call["law"]))
        self.s.append(callee("Rattle·task_records.proofs.looked_at", "lk") + callee("Rattle·loading.proofs.load", "ld") + callee("Rattle·%s_part.proofs.%s_part" % (self.name, self.name), "co"))
        if self.held:
            self.s.append(callee("Rattle·%s_call·proofs.proofs.task_held" % self.name, "th"))
        if self.uses_past:
            self.s.append(callee("Rattle·task_records.proofs.past", "pt"))
        if self.has_store:
            self.s.append(callee("Rattle·storing.proofs.store", "st"))
        here = "Rattle·%s_call·proofs.proofs.%s" % (self.name, self.name)
        self.s.append("use %s.Key.{name as #f}\nuse %s as f\nuse %s.Statement as stated\nuse %s.Code as code\n\n" % ((here,) * 4))
        self.s.append("abbrev stayed : Stays (f.ended .signature .params) (f.ended .kept)\nstayed = %s\n\n" % nested(self.stays))
        self.cited = [("Look", "lk"), ("Load", "ld"), ("Core", "co")] + ([("Task", "th")] if self.held else []) + ([("Past", "pt")] if self.uses_past else []) + ([("Store", "st")] if self.has_store else [])
        self.s.append("module _ {M : Type 1} (𝓤 : URA M) (H : Heap 𝓤) (A : Atoms 𝓤) (mem : Memory → SProp 𝓤) (run : Routine → Fun 𝓤) where\n  -- the contracts that the proof cites\n")
        for c, n in self.cited:
            self.s.append("  abbrev %s : Contract 𝓤\n  %s = tripleOf 𝓤 H A %s.signature (%s.spec 𝓤 H A mem run)\n\n" % (c, c, n, n))
        self.s.append("module _ {M : Type 1} (𝓤 : URA M) (H : Heap 𝓤) (A : Atoms 𝓤) (W : Given 𝓤 H A) (mem : Memory → SProp 𝓤) (run : Routine → Fun 𝓤) (%s : Lft) (%s : Share)\n    %s where\n" % (" ".join("κ" + k for k in self.indices), " ".join("q" + k for k in self.indices), "\n    ".join(self.mod_params)))

    def short_names(self):
        """the arguments, and the values passed"""
        d = []
        d.append(("Arg", "Type 0", product(self.arg_type)))
        d.append(("m", "RefT (List Float)", "record { ptr = (b₁, o₁); name = γ₁; now = ms }"))
        d.append(("ll", "RefT (List ℕ)", "record { ptr = (b₂, o₂); name = γ₂; now = ls }"))
        d.append(("rs : GName → RefT (List TaskRecord)", None, "rs δ = record { ptr = (b₃, o₃); name = δ; now = ys }", "the records, under the name δ; and the slice of the local l at the list xs"))
        d.append(("fl : ℕ → GName → List (List ℕ) → RefT (List (List ℕ))", None, "fl l δ xs = record { ptr = (l, 0); name = δ; now = xs }"))
        for p in self.more:
            k, el, _, xs, _, ref, _ = SLICE[p.name]
            d.append((ref, "RefT (List %s)" % el, "record { ptr = (b%s, o%s); name = γ%s; now = %s }" % (k, k, k, xs)))
        d.append(("a", "Arg", nested(self.arg)))
        d.append(("s₁", "Val", "sliceVal (b₁, o₁) (length ms)"))
        d.append(("s₂", "Val", "sliceVal (b₂, o₂) (length ls)"))
        d.append(("s₃", "Val", "sliceVal (b₃, o₃) (length ys)"))
        for p in self.more:
            k, xs = SLICE[p.name][0], SLICE[p.name][3]
            d.append(("s" + k, "Val", "sliceVal (b%s, o%s) (length %s)" % (k, k, xs)))
        d.append(("s₅ : ℕ → Val", None, "s₅ l = sliceVal (l, 0) N"))
        d.append(("zv", "Val", "LL.val Sz.the-type Sz′.the-laws z"))
        d.append(("wv", "Val", "LL.val Wk.the-type Wk′.the-laws wk"))
        d.append(("vs", product(["List Val"] * len(self.params)), nested(self.vals_)))
        d.append(("n", "ℕ", "cond (ltb (length ys) %s) (length ys) %s" % (COUNT, COUNT), "how many records are copied, and the copies before"))
        d.append(("X₀", "List (List ℕ)", "replicate N (replicate bytes 0)"))
        return d

    def owned_names(self):
        """what is owned, and what is to hold at the end"""
        d = []
        for p in self.slices:
            k, _, ty, _, own, ref, _ = SLICE[p.name]
            js = LIFETIME[k]
            d.append((own, "Fml", "%s (named %d) κ%s %s .own %s (s%s ∷ [])" % ("MutSlice" if p.mut else "ShrSlice", js, k, ty, ref, k), "what the borrows and the array own" if p.name == "matrix" else None))
        if self.has_store:
            d.append(("Shr : ℕ → GName → Fml", None, "Shr μ δ = ShrSlice (named 0) (μ ∷ []) T.the-row .own (rs δ) (s₃ ∷ [])"))
        d.append(("Mut : ℕ → ℕ → GName → List (List ℕ) → Fml", None, "Mut l ν δ xs = MutSlice (named 1) (ν ∷ []) B .own (fl l δ xs) (s₅ l ∷ [])"))
        if self.has_store:
            d.append(("Mut₂ : ℕ → ℕ → GName → List (List ℕ) → Fml", None, "Mut₂ l ν δ xs = MutSlice (named 2) (ν ∷ []) B .own (fl l δ xs) (s₅ l ∷ [])"))
            d.append(("Imm : ℕ → ℕ → GName → List (List ℕ) → Fml", None, "Imm l ν δ xs = ShrSlice (named 1) (ν ∷ []) B .own (fl l δ xs) (s₅ l ∷ [])"))
        else:
            d.append(("Imm : ℕ → ℕ → GName → List (List ℕ) → Fml", None, "Imm l ν δ xs = ShrSlice (named 2) (ν ∷ []) B .own (fl l δ xs) (s₅ l ∷ [])"))
        d.append(("Arr : List (List ℕ) → Val → Fml", None, "Arr xs v = Array B N .own xs (v ∷ [])"))
        d.append(("Cell : ℕ → Val → Fml", None, "Cell l v = fat fullShare (tyArray (tyArray (tyInt w8) bytes) N) l 0 v"))
        self.bound = "((%s, %s, tt, a, vs), tt)" % (self.lifetimes, self.shares)
        d.append(("Post : Val → SProp 𝓤", None, "Post = walkOf 𝓤 H A f.ended stayed (f.clauses 𝓤 H A mem run) .post %s" % self.bound))
        return d

    def defines(self):
        """the short names of the walk"""
        s = self.s
        for x in self.short_names() + self.owned_names():
            if len(x) > 3 and x[3]:
                s.append("  -- %s\n" % x[3])
            if x[1] is None:
                s.append("  abbrev %s\n  %s\n\n" % (x[0], x[2]))
            else:
                s.append("  abbrev %s : %s\n  %s = %s\n\n" % (x[0], x[1], x[0], x[2]))
        s.append("  n-short : n ≤ N\n  n-short = looked-most (length ys)\n\n  n-there : n ≤ length ys\n  n-there = looked-there (length ys)\n\n  n-fits : n < 2 ^ 64\n  n-fits = omega (arith, n-short)\n\n")

    def exits(self):
        """from what is owned at the end to what the contract says"""
        s = self.s
        fins = [(p, SLICE[p.name][6]) for p in self.muts]
        ctx = self.tokens + ["‵ (finally %s γ%s %s)" % (SLICE[p.name][2], SLICE[p.name][0], v) for p, v in fins] + ["‵ (Rp.the-row .own r (v ∷ []))"]
        binders = "(r : %s) (v : Val) " % self.reply + " ".join("(%s : List %s)" % (v, SLICE[p.name][1]) for p, v in fins)
        lens = " → ".join("length %s ≡ length %s" % (v, SLICE[p.name][3]) for p, v in fins)
        items = " ∷ ".join(ctx) + " ∷ []"
        lastv, lenv = [], []
        for p in self.params:
            hit = [v for q, v in fins if q is p]
            lastv.append(hit[0] if hit else "tt")
            lenv.append("len%s" % SLICE[p.name][0] if hit else "tt")
        fact = self.whole_fact("r", self.ms2, self.ls2, "zs")
        s.append("  exits : %s → %s%s\n      → ent 𝓤 (⋆ 𝓤 H A (%s)) (Post v)\n" % (binders.strip(), fact if not self.has_store else "(%s)" % fact, (" → " + lens) if lens else "", items))
        s.append("  exits r v %s e %s =\n" % (" ".join(v for _, v in fins), " ".join("len%s" % SLICE[p.name][0] for p, _ in fins)))
        s.append(exit_steps(self, items, lastv, lenv, [p for p, _ in fins]))

    def looked_at_and_load(self):
        """how `looked_at` and `load` are called"""
        s = self.s
        s.append("  -- `looked_at`\n  abbrev to-lk : Look 𝓤 H A mem run .Ghost\n  to-lk = ((tt, tt, tt, (length ys, tt), (vint w64 (length ys) ∷ [], tt)), tt)\n\n")
        s.append("  goes-lk : ent 𝓤 (sem 𝓤 H A ftrue) (Look 𝓤 H A mem run .pre to-lk)\n  goes-lk = unasked 𝓤 (qed W (‵ ftrue ∷ []) ∵ frame ! $ nothing ! $ owned ! usize (Is usize) (uint-makes 𝓤 H A W w64) (length ys) _ (refl, room₃ .0) $ fjoin ! $ done !)\n\n")
        s.append("  said-lk : (t : ℕ) → ent 𝓤 (ensured 𝓤 H A lk.ended (lk.clauses 𝓤 H A mem run) tt (length ys, tt) tt t) (fact 𝓤 (t ≡ n))\n  said-lk t = exE 𝓤 _ (λ ws. snd∗ 𝓤 (sem 𝓤 H A (lasts lk.ended tt (length ys, tt) ws)) (fact 𝓤 (t ≡ n)))\n\n")
        recs = "Shr μ δ" if self.has_store else "Rec"
        self.lk3 = "μ ∷ []" if self.has_store else "κ₃"
        q3 = "fullShare" if self.has_store else "q₃"
        self.rsn = "(rs δ)" if self.has_store else "(rs γ₃)"
        self.mu = "μ " if self.has_store else ""
        self.dl = "δ " if self.has_store else ""
        mub = "(l μ ν : ℕ) (δ ε : GName)" if self.has_store else "(l ν : ℕ) (ε : GName)"
        mut_ty = "ℕ → ℕ → ℕ → GName → GName" if self.has_store else "ℕ → ℕ → GName"
        s.append("  -- `load`\n  abbrev to-ld : %s → Load 𝓤 H A mem run .Ghost\n" % mut_ty)
        s.append("  to-ld l %sν %sε = (((%s, (ν ∷ [], tt)), (%s, (fullShare, tt)), tt, (%s, (fl l ε X₀, (n, tt))), (s₃ ∷ [], (s₅ l ∷ [], (vint w64 n ∷ [], tt)))), tt)\n\n" % (self.mu, self.dl, self.lk3, q3, self.rsn[1:-1]))
        lft3 = "A .lft (μ ∷ []) fullShare" if self.has_store else "A .lft κ₃ q₃"
        self.f3 = "flft (μ ∷ []) fullShare" if self.has_store else "flft κ₃ q₃"
        s.append("  goes-ld : %s → ent 𝓤 (sep 𝓤 (sep 𝓤 (%s) (A .lft (ν ∷ []) fullShare)) (sep 𝓤 (sem 𝓤 H A (%s)) (sem 𝓤 H A (Mut l ν ε X₀)))) (Load 𝓤 H A mem run .pre (to-ld l %sν %sε))\n" % (mub, lft3, recs, self.mu, self.dl))
        s.append("  goes-ld l %sν %sε =\n      qed W ((‵ (%s) ⊛ ‵ (flft (ν ∷ []) fullShare)) ∷ ‵ (%s) ∷ ‵ (Mut l ν ε X₀) ∷ []) ∵ says ! (n-there, subst (λ (k : ℕ). n ≤ k) (sym (length-replicate {A = List ℕ} N (replicate bytes 0))) n-short) $ split ! $\n" % (self.mu, self.dl, self.f3, recs))
        s.append("      nothing ! $ move ! (2 ∷ 0 ∷ []) $ join ! $ move ! (1 ∷ 0 ∷ []) $ join ! $ frame ! $ nothing ! $ owned ! usize (Is usize) (uint-makes 𝓤 H A W w64) n _ (refl, n-fits) $ fjoin ! $ move ! (2 ∷ 0 ∷ []) $ fjoin ! $ move ! (1 ∷ 0 ∷ []) $ fjoin ! $ done !\n\n")
        s.append("  abbrev Loaded : List (List ℕ) → Type 0\n  Loaded X = recordsFrom X ≡ copied n 0 ys (recordsFrom X₀)\n\n")

    def part(self):
        """how the part is called"""
        s = self.s
        core_flat = "Mut₂" if self.has_store else "Imm"
        s.append("  -- `%s_part`\n  abbrev to-co : ℕ → ℕ → GName → List (List ℕ) → Core 𝓤 H A mem run .Ghost\n  to-co l ν ε X = ((%s, %s, tt, %s, %s), tt)\n\n" % (self.name, self.part_lifetimes, self.part_shares, nested([x.strip("()") if x.startswith("(fl") else x for x in self.part_args]), nested(self.part_vals)))
        part_lfts = ["A .lft (ν ∷ []) fullShare" if k == "₃" else "A .lft κ%s q%s" % (k, k) for k in self.indices]
        s.append("  goes-co : (l ν : ℕ) (ε : GName) (X : List (List ℕ)) → length X ≡ N → ent 𝓤 (sep 𝓤 %s (sep 𝓤 %s (sem 𝓤 H A (%s l ν ε X)))) (Core 𝓤 H A mem run .pre (to-co l ν ε X))\n" % (seps(["(%s)" % x for x in part_lfts]), seps(["(sem 𝓤 H A %s)" % x for x in self.part_borrows]), core_flat))
        s.append("  goes-co l ν ε X long =\n      qed W ((%s) ∷ (%s) ∷ ‵ (%s l ν ε X) ∷ []) ∵ says ! (subst (λ (k : ℕ). n ≤ k) (sym long) n-short) $ " % (" ⊛ ".join(self.part_tokens), " ⊛ ".join("‵ " + x for x in self.part_borrows), core_flat))
        c = Walk()
        c.ctx = ["toks", "borrows", "flat"]
        c.apart("toks", self.part_names)
        c.emit("\n      ")
        c.front("all", "nothing ! $ ")
        for x in reversed(self.part_names):
            c.move(x, "all")
            c.join("all")
        c.gone("frame ! $ ")
        c.apart("borrows", self.part_borrows)
        c.emit("\n      ")
        c.front("all", "nothing ! $ ")
        for p in reversed(self.params[5:]):
            if p.kind == "slice":
                c.passes(SLICE[p.name][4])
            else:
                c.emit("owned ! %s (Is %s) (uint-makes 𝓤 H A W w64) %s _ (refl, %s-fits) $ fjoin ! $ " % (p.kind, p.kind, p.name, p.name))
        c.emit("owned ! Wk.the-row (Is Wk.the-row) (LL.makes Wk.the-type Wk′.the-plain 𝓤 H A) wk _ wk-is $ fjoin ! $\n      owned ! usize (Is usize) (uint-makes 𝓤 H A W w64) n _ (refl, n-fits) $ fjoin ! $ ")
        for x in ("flat", "Lis", "Mat"):
            c.passes(x)
        s.append("".join(c.out).replace(" $ \n", " $\n").rstrip() + "\n      owned ! Sz.the-row (Is Sz.the-row) (LL.makes Sz.the-type Sz′.the-plain 𝓤 H A) z _ z-is $ fjoin ! $ done !\n\n")
        pf_args = ["(r : %s)" % self.reply] + (["(ms′ : List Float)"] if self.mat.mut else []) + (["(ls′ : List ℕ)"] if self.lis.mut else []) + (["(X′ : List (List ℕ))"] if self.has_store else []) + (["(us′ : List Float)"] if self.ans else [])
        pf_names = ["r"] + (["ms′"] if self.mat.mut else []) + (["ls′"] if self.lis.mut else []) + (["X′"] if self.has_store else []) + (["us′"] if self.ans else [])
        s.append("  abbrev Told : (X : List (List ℕ)) %s → Type 0\n  Told X %s = %s\n\n" % (" ".join(pf_args), " ".join(pf_names), self.part_fact("r", self.ms2, self.ls2, "X′")))

    def task_held_and_past(self):
        """how `task_held` and `past` are called"""
        s = self.s
        if self.held:
            s.append("  -- `task_held`\n  abbrev p : ℕ\n  p = getD (wk .slots) w idle .task\n\n  abbrev to-th : Task 𝓤 H A mem run .Ghost\n  to-th = ((tt, tt, tt, (wk, (w, tt)), (LL.vals Wk.the-type Wk′.the-laws wk, (vint w64 w ∷ [], tt))), tt)\n\n")
            s.append("  goes-th : ent 𝓤 (sem 𝓤 H A ftrue) (Task 𝓤 H A mem run .pre to-th)\n  goes-th = unasked 𝓤 (qed W (‵ ftrue ∷ []) ∵ frame ! $ nothing ! $ owned ! usize (Is usize) (uint-makes 𝓤 H A W w64) w _ (refl, w-fits) $ fjoin ! $ owned ! Wk.the-row (Is Wk.the-row) (LL.makes Wk.the-type Wk′.the-plain 𝓤 H A) wk _ wk-is $ fjoin ! $ done !)\n\n")
            s.append("  said-th : (t : ℕ) → ent 𝓤 (ensured 𝓤 H A th.ended (th.clauses 𝓤 H A mem run) tt (wk, (w, tt)) tt t) (fact 𝓤 (t ≡ p))\n  said-th t = exE 𝓤 _ (λ ws. snd∗ 𝓤 (sem 𝓤 H A (lasts th.ended tt (wk, (w, tt)) ws)) (fact 𝓤 (t ≡ p)))\n\n")
        if self.uses_past:
            pa = "(p-fits : p < 2 ^ 64) → " if self.held else ""
            pv = "p-fits " if self.held else ""
            s.append("  -- `past`\n  abbrev past-p : ℕ\n  past-p = cond (ltb p n) (p + 1) 0\n\n  past-short : past-p ≤ n\n  past-short = past-most p n\n\n  abbrev to-pt : Past 𝓤 H A mem run .Ghost\n  to-pt = ((tt, tt, tt, (p, (n, tt)), (vint w64 p ∷ [], (vint w64 n ∷ [], tt))), tt)\n\n")
            s.append("  goes-pt : %sent 𝓤 (sem 𝓤 H A ftrue) (Past 𝓤 H A mem run .pre to-pt)\n  goes-pt %s= unasked 𝓤 (qed W (‵ ftrue ∷ []) ∵ frame ! $ nothing ! $ owned ! usize (Is usize) (uint-makes 𝓤 H A W w64) n _ (refl, n-fits) $ fjoin ! $ owned ! usize (Is usize) (uint-makes 𝓤 H A W w64) p _ (refl, p-fits) $ fjoin ! $ done !)\n\n" % (pa, pv))
            s.append("  said-pt : (t : ℕ) → ent 𝓤 (ensured 𝓤 H A pt.ended (pt.clauses 𝓤 H A mem run) tt (p, (n, tt)) tt t) (fact 𝓤 (t ≡ past-p))\n  said-pt t = exE 𝓤 _ (λ ws. snd∗ 𝓤 (sem 𝓤 H A (lasts pt.ended tt (p, (n, tt)) ws)) (fact 𝓤 (t ≡ past-p)))\n\n")

    def store(self):
        """how `store` is called"""
        s = self.s
        if self.has_store:
            # the store starts at p, or at a literal, which the walk reads from the code
            self.frm, self.end = ("p", "past-p") if self.uses_past else ("start", "n")
            self.given, given_type = ("", "") if self.uses_past else ("start ", "ℕ → ")
            pa = "p < 2 ^ 64 → " if self.held else "" if self.uses_past else "(start : ℕ) → start < 2 ^ 64 → "
            pv = "p-fits " if self.held else "" if self.uses_past else "start start-fits "
            frm_fits = "p-fits" if self.uses_past else "start-fits"
            s.append("  -- `store`%s\n  abbrev to-st : %sℕ → ℕ → GName → List (List ℕ) → Store 𝓤 H A mem run .Ghost\n  to-st %sl ν ε X = (((κ₃, (ν ∷ [], tt)), (q₃, (fullShare, tt)), tt, (rs γ₃, (fl l ε X, (%s, (%s, tt)))), (s₃ ∷ [], (s₅ l ∷ [], (vint w64 %s ∷ [], (vint w64 %s ∷ [], tt))))), tt)\n\n" % ("" if self.uses_past else ", from where the code starts it", given_type, self.given, self.frm, self.end, self.frm, self.end))
            end_le = ("le-trans past-short n-there", "le-trans past-short n-short") if self.uses_past else ("n-there", "n-short")
            end_fits = "lt-of-le-of-lt past-short n-fits" if self.uses_past else "n-fits"
            s.append("  goes-st : %s(l ν : ℕ) (ε : GName) (X : List (List ℕ)) → length X ≡ N → ent 𝓤 (sep 𝓤 (sep 𝓤 (A .lft κ₃ q₃) (A .lft (ν ∷ []) fullShare)) (sep 𝓤 (sem 𝓤 H A Rec) (sem 𝓤 H A (Imm l ν ε X)))) (Store 𝓤 H A mem run .pre (to-st %sl ν ε X))\n" % (pa, self.given))
            s.append("  goes-st %sl ν ε X long =\n      qed W ((‵ (flft κ₃ q₃) ⊛ ‵ (flft (ν ∷ []) fullShare)) ∷ ‵ Rec ∷ ‵ (Imm l ν ε X) ∷ []) ∵ says ! (%s, subst (λ (k : ℕ). %s ≤ k) (sym long) (%s)) $ split ! $\n" % (pv, end_le[0], self.end, end_le[1]))
            s.append("      nothing ! $ move ! (2 ∷ 0 ∷ []) $ join ! $ move ! (1 ∷ 0 ∷ []) $ join ! $ frame ! $ nothing ! $ owned ! usize (Is usize) (uint-makes 𝓤 H A W w64) %s _ (refl, %s) $ fjoin ! $ owned ! usize (Is usize) (uint-makes 𝓤 H A W w64) %s _ (refl, %s) $ fjoin ! $\n      move ! (2 ∷ 0 ∷ []) $ fjoin ! $ move ! (1 ∷ 0 ∷ []) $ fjoin ! $ done !\n\n" % (self.end, end_fits, self.frm, frm_fits))
            s.append("  abbrev Stored : %sList (List ℕ) → List TaskRecord → Type 0\n  Stored %sX zs = zs ≡ copied (%s - %s) %s (recordsFrom X) ys\n\n" % (given_type, self.given, self.end, self.frm, self.frm))
        s.append("  unit-typed : (w : Val) → w ∷ [] ≡ vunit ∷ [] → Holds (hasTy tyUnit w) × WT w\n  unit-typed w is = subst (λ (v : Val). Holds (hasTy tyUnit v) × WT v) (sym (ap only is)) (tt, tt)\n\n")

    def enters(self):
        """the walk's start: locals and parameters"""
        s = self.s
        self.L = self.call["locals"]
        self.top = self.L["top"]
        g = self.g = Walk()
        knowns = " ".join("(known-%s : Triple 𝓤 (C #%s) (%s 𝓤 H A mem run))" % (n, n, c) for c, n in self.cited)
        s.append("  module _ (C : Calls 𝓤 H) (Λ : Loops 𝓤 H) (fm : FmC 𝓤 H (W .laws) C) %s where\n" % knowns)
        s.append("    walk : ent 𝓤 (onEntry 𝓤 H A f.signature %s %s a vs) (WpFn 𝓤 H C Λ code.function (%s) Post)\n    walk =\n        " % (self.lifetimes, self.shares, self.passed))
        g.emit("qed W ((%s ⊛ ‵ ftrue) ∷ ‵ (owns (%s ∷ []) a vs) ∷ []) ∵ enter ! C Λ code.function (%s) _ $ " % (" ⊛ ".join(self.tokens), " ∷ ".join(self.rows), self.passed))
        g.line()
        g.emit("".join("alloc1 ! (λ l%s. " % sub(i) for i in range(self.top + 1)) + "alloc0 ! $ params1 ! $ ")
        g.line()
        for i in range(self.top, -1, -1):
            g.ctx += ["L%d" % i, "D%d" % i]
        g.ctx += ["toks", "owns"]
        for j, p in enumerate(self.params):
            pos = g.at("L%d" % (j + 1))
            if p.kind == "slice":
                g.emit("pass1 ! (init ! %d refl (tt, (tt, (record { fits = room%s .0 }, tt)))) $ " % (pos, SLICE[p.name][0]))
            elif p.kind == "sizes":
                g.emit("pass1 ! (init ! %d refl (LL.lawful Sz.the-type Sz′.the-laws 𝓤 H A W .typed z _ z-is .0)) $ " % pos)
            elif p.kind == "workers":
                g.emit("pass1 ! (init ! %d refl (LL.lawful Wk.the-type Wk′.the-laws 𝓤 H A W .typed wk _ wk-is .0)) $ " % pos)
            else:
                g.emit("pass1 ! (init ! %d refl (tt, record { fits = %s-fits })) $ " % (pos, p.name))
        g.emit("pass0 ! $ ")
        g.line()

    def parts_owned(self):
        """what is owned comes apart"""
        g = self.g
        g.emit("-- the tokens and the borrows to the front; then the locals, the last first, each with what says that it dies")
        g.line()
        g.move("owns")
        rest = "owns"
        for j in range(self.params.index(self.slices[-1]) + 1):
            g.move(rest)
            g.split("own%d" % j, "rest%d" % j, "f")
            rest = "rest%d" % j
        rest = "toks"
        for k in self.indices:
            g.move(rest)
            rest = "tok" + k
            g.split("κ" + k, rest)
        for p in self.slices:
            g.ctx[g.at("own%d" % self.params.index(p))] = SLICE[p.name][4]
        locs = [x for i in range(self.top, -1, -1) for x in ("L%d" % i, "D%d" % i)]
        g.keep(["κ" + k for k in self.indices] + [SLICE[p.name][4] for p in self.slices] + locs)
        g.line()

    def makes_array(self):
        """the array of copies"""
        g = self.g
        self.HELD, ZERO, self.LEN, self.CNT, self.UNIT = self.L["flat"], self.L["zero"], self.L["len"], self.L["n"], self.L["unit"]
        zv5 = "(arrayVal (replicate bytes (vint w8 0)))"
        zvN = "(arrayVal (replicate N %s))" % zv5
        g.emit("-- the array is made")
        g.line()
        g.front("Z", "owned ! u8 (Is u8) (uint-makes 𝓤 H A W w8) 0 (vint w8 0 ∷ []) (refl, lit< tt) $ ")
        g.use(1, "Z5", "‵ (B .own (replicate bytes 0) (%s ∷ []))" % zv5, "array-repeat 𝓤 H A W u8 (uint-copy 𝓤 H A W w8) bytes 0 (vint w8 0)")
        g.emit("peeks ! B (Is B) (shows 𝓤 H A B) (replicate bytes 0) (%s ∷ []) (λ copy. " % zv5)
        g.line()
        g.emit("assigns ! (rep ! bytes (lit ! tt)) (from ! (stop !)) (init ! %d refl (array-lawful 𝓤 H A W u8 (uint-lawful 𝓤 H A W w8) bytes .typed (replicate bytes 0) _ copy .0)) $ " % g.at("L%d" % ZERO))
        g.use(1, "Arr", "‵ (Arr X₀ %s)" % zvN, "array-repeat 𝓤 H A W B (array-copy 𝓤 H A W u8 (uint-copy 𝓤 H A W w8) bytes) N (replicate bytes 0) %s" % zv5)
        g.line()
        g.emit("peeks ! (Array B N) (Is (Array B N)) (shows 𝓤 H A (Array B N)) X₀ (%s ∷ []) (λ new. " % zvN)
        g.emit("assigns ! (rep ! N %s) (from ! (stop !)) (init ! %d refl (array-lawful 𝓤 H A W B (array-lawful 𝓤 H A W u8 (uint-lawful 𝓤 H A W w8) bytes) N .typed X₀ _ new .0)) $ " % (g.look(ZERO), g.at("L%d" % self.HELD)))
        g.line()
        self.lh = "l" + sub(self.HELD)

    def pure_call(self, con, sym_, to, goes_, args, dst, value, said, w, how, is_):
        """a call that takes numbers and returns one"""
        g = self.g
        g.front("true0", "nothing ! $ ")
        g.use(1, "pre", "raw (%s 𝓤 H A mem run .pre %s)" % (con, to), goes_)
        g.emit("calls-at ! fm (%s 𝓤 H A mem run) known-%s %s %s (λ %s. " % (con, sym_, to, g.opds(args), w))
        g.line()
        ghost = CALL_ARGS[sym_]
        g.use(1, "post", "later (some (λ (t : ℕ). (‵ ftrue ⊛ ‵ (usize .own t (%s ∷ []))) ⊛ raw (ensured 𝓤 H A %s.ended (%s.clauses 𝓤 H A mem run) tt %s tt t)))" % (w, sym_, sym_, ghost), "id⊢ 𝓤 _")
        t = "t" + w[1:]
        g.emit("await ! tt $ pick ! (λ %s. " % t)
        g.split("back", "ens")
        g.move("ens")
        g.use(1, "fact", "raw (fact 𝓤 (%s ≡ %s))" % (t, value), "%s %s" % (said, t))
        e = "e" + w[1:]
        g.gone("heard ! (%s ≡ %s) (λ %s. " % (t, value, e))
        g.split("true1", "num")
        g.emit("rewrite ! 1 (λ (h : ℕ). ‵ (usize .own h (%s ∷ []))) %s refl $ " % (w, e))
        g.move("num")
        g.emit("peeks ! usize (Is usize) (shows 𝓤 H A usize) (%s) (%s ∷ []) (λ %s. " % (value, w, is_))
        g.line()
        g.emit("land ! (from ! (stop !)) (%s ! %d refl (word-typed (%s) %s %s)) $ " % (how, g.at("L%d" % dst), value, w, is_))
        g.emit("rewrite ! %d (λ (v : Val). ‵ (fat fullShare (tyInt w64) l%s 0 v)) (ap only (uint-tells w64 (%s) (%s ∷ []) %s)) refl $ " % (g.at("L%d" % dst), sub(dst), value, w, is_))
        g.gone("drop ! $ ")
        g.gone("drop ! $ ")
        g.line()

    def counts(self):
        """how many records are copied"""
        g = self.g
        g.emit("-- how many records are copied")
        g.line()
        g.emit("assigns ! (of-opd ! (load ! (from ! (fld ! refl (stop !))) (look-in ! %d (sub ! 1 refl (all-of !))))) (from ! (stop !)) (init ! %d refl (tt, record { fits = room₃ .0 })) $ " % (g.at("L4"), g.at("L%d" % self.LEN)))
        g.line()
        self.pure_call("Look", "lk", "to-lk", "goes-lk", [self.LEN], self.CNT, "n", "said-lk", "w₀", "init", "is₀")

    def lend(self, kind, X, which="lends-local", slot="named 1"):
        """the array is lent for a new lifetime"""
        g = self.g
        g.front("ν", "lft-new ! tt (λ ν. ")
        g.move("L%d" % self.HELD, "Arr")
        hold = "‵ (flent (ν ∷ []) (Held B N %s 0 ε))" % self.lh if which == "lends-local" else "‵ (flent (ν ∷ []) (arr-parts (shares B) N .part fullShare %s %s 0))" % (X, self.lh)
        g.line()
        g.use(2, "lend", "later (some (λ (ε : GName). ‵ (%s %s ν ε %s) ⊛ %s))" % (kind, self.lh, X, hold), "%s B tt byteVals byteTells N 𝓤 H A W (%s) (ν ∷ []) %s _ %s room" % (which, slot, X, self.lh))
        g.emit("await ! tt $ pick ! (λ ε. ")
        g.split("lent", "hold")
        g.line()

    def calls_load(self):
        """the copies are filled"""
        g = self.g
        g.emit("-- `load`: the array is lent for ν%s" % (", and the records as a `&` for μ" if self.has_store else ""))
        g.line()
        if self.has_store:
            g.slice_to(self.L["shr"], self.L["shr"] + 1, 4, "room₃")
        g.array_to(self.L["mut"], self.L["mut"] + 1)
        self.lend("Mut", "X₀")
        if self.has_store:
            g.front("μ", "lft-new ! tt (λ μ. ")
            g.move("Rec", "κ₃")
            g.use(2, "shared", "later (some (λ (δ : GName). ‵ (Shr μ δ) ⊛ ‵ (Shared T.the-row κ₃ (μ ∷ []) q₃ γ₃ b₃ o₃ ys)))", "shares-again T.the-row κ₃ (μ ∷ []) q₃ γ₃ b₃ o₃ ys 𝓤 H A W (named 2) (named 0)")
            g.emit("await ! tt $ pick ! (λ δ. ")
            g.split("Shr", "Shared")
            g.line()
            g.move("μ", "ν")
            g.join("μν")
            g.move("μν", "Shr", "lent")
        else:
            g.move("κ₃", "ν")
            g.join("μν")
            g.move("μν", "Rec", "lent")
        to = "(to-ld %s %sν %sε)" % (self.lh, self.mu, self.dl)
        g.use(3, "pre", "raw (Load 𝓤 H A mem run .pre %s)" % to, "goes-ld %s %sν %sε" % (self.lh, self.mu, self.dl))
        g.emit("calls-at ! fm (Load 𝓤 H A mem run) known-ld %s %s (λ w₁. " % (to, g.opds([self.L["shr"] + 1 if self.has_store else 4, self.L["mut"] + 1, self.CNT])))
        g.line()

    def loaded(self):
        """what `load` leaves"""
        g = self.g
        gl = "(%s, (ν ∷ [], tt))" % self.lk3
        ga = "(%s, (fl %s ε X₀, (n, tt)))" % (self.rsn[1:-1], self.lh)
        tk = "‵ (%s) ⊛ ‵ (flft (ν ∷ []) fullShare) ⊛ ‵ ftrue" % self.f3
        g.use(1, "post", "later (some (λ (t : Unit {0}). ((%s) ⊛ ‵ (unit .own t (w₁ ∷ []))) ⊛ raw (ensured 𝓤 H A ld.ended (ld.clauses 𝓤 H A mem run) %s %s tt t)))" % (tk, gl, ga), "id⊢ 𝓤 _")
        g.emit("await ! tt $ pick ! (λ t₁. ")
        g.split("back", "ens")
        g.move("ens")
        g.line()
        g.use(1, "ens", "some (λ (ws : Unit {0} × (List (List ℕ) × (Unit {0} × Unit {0}))). ‵ (lasts ld.ended %s %s ws) ⊛ raw (fact 𝓤 (Loaded (ws .1 .0))))" % (gl, ga), "id⊢ 𝓤 _")
        g.emit("pick ! (λ ws₁. ")
        g.split("lasts", "fact")
        g.move("fact")
        g.gone("heard ! (Loaded (ws₁ .1 .0)) (λ e₁. ")
        g.line()
        g.split("none", "lasts", "f")
        g.gone("drop ! $ ")
        g.split("last", "lasts", "f")
        g.split("fin", "same", "f")
        g.move("same")
        g.gone("feqL ! (λ same₀. ")
        g.move("lasts")
        g.gone("drop ! $ ")
        g.move("back")
        g.split("toks", "unit")
        g.move("unit")
        g.gone("feqL ! (λ is₁. ")
        g.emit("land ! (from ! (stop !)) (init ! %d refl (unit-typed w₁ is₁)) $ " % g.at("L%d" % self.UNIT))
        g.line()

    def load_done(self):
        """the borrows end, and the array is back"""
        g = self.g
        g.move("toks")
        g.split3("μ" if self.has_store else "κ₃", "ν", "true2")
        if self.has_store:
            g.emit("lft-end ! tt $ ")
            g.move("μ", "Shared")
            g.use(2, "RecK", "later (‵ Rec ⊛ ‵ (flft κ₃ q₃))", "shared-back T.the-row κ₃ (μ ∷ []) q₃ γ₃ b₃ o₃ ys 𝓤 H A W (named 2) (named 0) room₃")
            g.emit("await ! tt $ ")
            g.split("Rec", "κ₃")
            g.line()
        g.move("ν")
        g.emit("lft-end ! tt $ ")
        g.move("ν", "hold", "fin")
        self.X1 = "(ws₁ .1 .0)"
        g.use(3, "LA", "later (‵ (Cell %s (copiesVal %s)) ⊛ ‵ (Arr %s (copiesVal %s)))" % (self.lh, self.X1, self.X1, self.X1), "local-back B tt byteVals byteTells N 𝓤 H A W (ν ∷ []) ε %s %s" % (self.X1, self.lh))
        g.emit("await ! tt $ ")
        g.split("L%d" % self.HELD, "Arr")
        g.line()

    def calls_part(self):
        """the part works on the copies"""
        g = self.g
        g.emit("-- `%s_part`: the array is lent for ν" % self.name)
        g.line()
        opd = [1, 2, 3, self.L["core"] + 1, self.CNT, 5] + list(range(6, len(self.params) + 1))
        if self.mat.mut:
            g.slice_to(self.L["mat"], self.L["mat"] + 1, 2, "room₁")
            opd[1] = self.L["mat"] + 1
        if self.lis.mut:
            g.slice_to(self.L["lis"], self.L["lis"] + 1, 3, "room₂")
            opd[2] = self.L["lis"] + 1
        g.array_to(self.L["core"], self.L["core"] + 1)
        if self.ans:
            g.slice_to(self.L["ans"], self.L["ans"] + 1, len(self.params), "room₆")
            opd[-1] = self.L["ans"] + 1
        g.move("Arr")
        g.emit("peeks ! (Array B N) (Is (Array B N)) (shows 𝓤 H A (Array B N)) %s (copiesVal %s ∷ []) (λ good₁. " % (self.X1, self.X1))
        if self.has_store:
            self.lend("Mut₂", self.X1, slot="named 2")
        else:
            self.lend("Imm", self.X1, which="shares-local", slot="named 2")
        for names, whole_ in ((self.part_names, "toks"), (self.part_borrows, "borrows")):
            rest = names[-1]
            for x in reversed(names[:-1]):
                g.move(x, rest)
                rest = whole_
                g.join(rest)
        g.move("toks", "borrows", "lent")
        g.line()
        to = "(to-co %s ν ε %s)" % (self.lh, self.X1)
        g.use(3, "pre", "raw (Core 𝓤 H A mem run .pre %s)" % to, "goes-co %s ν ε %s (good₁ .1 .0 .1)" % (self.lh, self.X1))
        g.emit("calls-at ! fm (Core 𝓤 H A mem run) known-co %s %s (λ w₂. " % (to, g.opds(opd)))
        g.line()

    def part_tells(self):
        """what the part says of all that it was lent"""
        g = self.g
        gl = self.part_lifetimes
        ga = nested([("fl %s ε %s" % (self.lh, self.X1)) if x.startswith("(fl") else x for x in self.part_args])
        g.use(1, "post", "later (some (λ (t : %s). ((%s ⊛ ‵ ftrue) ⊛ ‵ (Rp.the-row .own t (w₂ ∷ []))) ⊛ raw (ensured 𝓤 H A co.ended (co.clauses 𝓤 H A mem run) %s %s tt t)))" % (self.reply, " ⊛ ".join(self.part_tokens), gl, ga), "id⊢ 𝓤 _")
        g.emit("await ! tt $ pick ! (λ t₂. ")
        g.split("back", "ens")
        g.move("ens")
        g.line()
        wtypes = ["Unit {0}", "List Float" if self.mat.mut else "Unit {0}", "List ℕ" if self.lis.mut else "Unit {0}", "List (List ℕ)" if self.has_store else "Unit {0}"] + ["Unit {0}"] * (len(self.params) - 3)
        if self.ans:
            wtypes[-1] = "List Float"
        wty = product(wtypes)
        self.wms, self.wls, wX, self.wus = "(ws .1 .0)", "(ws .1 .1 .0)", "(ws .1 .1 .1 .0)", "(%s)" % nth("ws", len(self.params))
        told = lambda t, wsn: "Told %s %s" % (self.X1, " ".join([t] + [v.replace("ws", wsn) for v, on in ((self.wms, self.mat.mut), (self.wls, self.lis.mut), (wX, self.has_store), (self.wus, self.ans)) if on]))
        g.use(1, "ens", "some (λ (ws : %s). ‵ (lasts co.ended %s %s ws) ⊛ raw (fact 𝓤 (%s)))" % (wty, gl, ga, told("t₂", "ws")), "id⊢ 𝓤 _")
        g.emit("pick ! (λ ws₂. ")
        g.split("lasts", "fact")
        g.move("fact")
        g.gone("heard ! (%s) (λ e₂. " % told("t₂", "ws₂"))
        g.line()
        g.split("none", "lasts", "f")
        g.gone("drop ! $ ")
        lasts = [("finM", self.mat.mut, "sameM"), ("finL", self.lis.mut, "sameL"), ("fin", self.has_store, "sameX")]
        if self.ans:
            lasts += [(None, False, None)] * (len(self.params) - 4) + [("finA", True, "sameA")]
        for key, on, same in lasts:
            g.move("lasts")
            g.split("last", "lasts", "f")
            if on:
                g.split(key, "same", "f")
                g.move("same")
                g.gone("feqL ! (λ %s. " % same)
            else:
                g.gone("drop ! $ ")
        g.move("lasts")
        g.gone("drop ! $ ")
        g.line()

    def part_done(self):
        """its reply, and the array back"""
        g = self.g
        g.move("back")
        g.split("toks", "Rp")
        g.move("Rp")
        g.emit("peeks ! Rp.the-row (Is Rp.the-row) (shows 𝓤 H A Rp.the-row) t₂ (w₂ ∷ []) (λ is₂. ")
        g.line()
        self.dst = self.L["reply"]
        g.emit("land ! (from ! (stop !)) (init ! %d refl (%s .typed t₂ _ is₂ .0)) $ " % (g.at("L%d" % self.dst), "LL.lawful Rp.the-type Rp′.the-laws 𝓤 H A W" if self.has_store else "EL.lawful Rp.the-type Rp′.the-laws 𝓤 H A W tt"))
        g.line()
        for x in self.part_names[:-2]:
            g.move("toks")
            g.split(x, "toks")
        g.move("toks")
        g.split3(self.part_names[-2], self.part_names[-1], "true3")
        g.move("ν")
        g.emit("lft-end ! tt $ ")
        self.X2 = "(ws₂ .1 .1 .1 .0)"
        if self.has_store:
            g.move("ν", "hold", "fin")
            g.use(3, "LA", "later (‵ (Cell %s (copiesVal %s)) ⊛ ‵ (Arr %s (copiesVal %s)))" % (self.lh, self.X2, self.X2, self.X2), "local-back B tt byteVals byteTells N 𝓤 H A W (ν ∷ []) ε %s %s" % (self.X2, self.lh))
        else:
            g.move("ν", "hold")
            g.use(2, "LA", "later (‵ (Cell %s (copiesVal %s)) ⊛ ‵ (Arr %s (copiesVal %s)))" % (self.lh, self.X1, self.X1, self.X1), "local-shared-back B tt byteVals byteTells N 𝓤 H A W (ν ∷ []) %s %s" % (self.X1, self.lh))
        g.emit("await ! tt $ ")
        g.split("L%d" % self.HELD, "Arr")
        g.line()

    def calls_store(self):
        """the copies go back"""
        g = self.g
        if self.held:
            self.pure_call("Task", "th", "to-th", "goes-th", [5, 6], self.L["p"], "p", "said-th", "w₅", "init", "is₅")
            pf = "(is₅ .1) "
        else:
            pf = ""
        g.emit("-- `store`: the records go on at their own lifetime, and the array is lent as a `&` for ν")
        g.line()
        g.slice_to(self.L["rec"], self.L["rec"] + 1, 4, "room₃")
        g.array_to(self.L["imm"], self.L["imm"] + 1)
        if self.uses_past:
            self.pure_call("Past", "pt", "to-pt", ("goes-pt " + pf).strip(), [self.L["p"], self.CNT], self.LEN, "past-p", "said-pt", "w₄", "store", "is₄")
        g.move("Arr")
        g.emit("peeks ! (Array B N) (Is (Array B N)) (shows 𝓤 H A (Array B N)) %s (copiesVal %s ∷ []) (λ good₂. %s" % (self.X2, self.X2, "" if self.uses_past else "let start : ℕ = _ in "))
        self.lend("Imm", self.X2, which="shares-local", slot="named 1")
        g.move("κ₃", "ν")
        g.join("κν")
        g.move("κν", "Rec", "lent")
        to = "(to-st %s%s ν ε %s)" % (self.given, self.lh, self.X2)
        g.use(3, "pre", "raw (Store 𝓤 H A mem run .pre %s)" % to, "goes-st %s%s ν ε %s (good₂ .1 .0 .1)" % (pf if self.uses_past else "start (lit< tt) ", self.lh, self.X2))
        g.emit("calls-at ! fm (Store 𝓤 H A mem run) known-st %s %s (λ w₃. " % (to, g.opds([self.L["rec"] + 1, self.L["imm"] + 1, self.L["p"] if self.uses_past else "(lit ! tt)", self.LEN if self.uses_past else self.CNT])))
        g.line()

    def stored(self):
        """what `store` leaves, and the array back"""
        g = self.g
        gl = "(κ₃, (ν ∷ [], tt))"
        ga = "(rs γ₃, (fl %s ε %s, (%s, (%s, tt))))" % (self.lh, self.X2, self.frm, self.end)
        g.use(1, "post", "later (some (λ (t : Unit {0}). ((‵ (flft κ₃ q₃) ⊛ ‵ (flft (ν ∷ []) fullShare) ⊛ ‵ ftrue) ⊛ ‵ (unit .own t (w₃ ∷ []))) ⊛ raw (ensured 𝓤 H A st.ended (st.clauses 𝓤 H A mem run) %s %s tt t)))" % (gl, ga), "id⊢ 𝓤 _")
        g.emit("await ! tt $ pick ! (λ t₃. ")
        g.split("back", "ens")
        g.move("ens")
        g.line()
        g.use(1, "ens", "some (λ (zs : List TaskRecord × (Unit {0} × (Unit {0} × (Unit {0} × Unit {0})))). ‵ (lasts st.ended %s %s zs) ⊛ raw (fact 𝓤 (Stored %s%s (zs .0))))" % (gl, ga, self.given, self.X2), "id⊢ 𝓤 _")
        g.emit("pick ! (λ zs. ")
        g.split("lasts", "fact")
        g.move("fact")
        g.gone("heard ! (Stored %s%s (zs .0)) (λ e₃. " % (self.given, self.X2))
        g.line()
        g.split("last", "lasts", "f")
        g.split("finR", "same", "f")
        g.move("same")
        g.gone("feqL ! (λ sameR. ")
        g.move("lasts")
        g.gone("drop ! $ ")
        g.move("back")
        g.split("toks", "unit")
        g.move("unit")
        g.gone("feqL ! (λ is₃. ")
        g.emit("land ! (from ! (stop !)) (store ! %d refl (unit-typed w₃ is₃)) $ " % g.at("L%d" % self.UNIT))
        g.line()
        g.move("toks")
        g.split3("κ₃", "ν", "true4")
        g.move("ν")
        g.emit("lft-end ! tt $ ")
        g.move("ν", "hold")
        g.use(2, "LA", "later (‵ (Cell %s (copiesVal %s)) ⊛ ‵ (Arr %s (copiesVal %s)))" % (self.lh, self.X2, self.X2, self.X2), "local-shared-back B tt byteVals byteTells N 𝓤 H A W (ν ∷ []) %s %s" % (self.X2, self.lh))
        g.emit("await ! tt $ ")
        g.split("L%d" % self.HELD, "Arr")
        g.line()
        g.emit("assigns ! (of-opd ! %s) (from ! (stop !)) (init ! %d refl (LL.lawful Rp.the-type Rp′.the-laws 𝓤 H A W .typed t₂ _ is₂ .0)) $ " % (g.look(self.dst), g.at("L0")))
        g.line()

    def leaves(self):
        """the walk's end"""
        s = self.s
        g = self.g
        g.leaves(self.top)
        g.keep(["κ" + k for k in self.indices] + (["finM"] if self.mat.mut else []) + (["finL"] if self.lis.mut else []) + (["finR"] if self.has_store else []) + (["finA"] if self.ans else []) + ["Rp"])
        fin_vals = [v.replace("ws", "ws₂") for v, on in ((self.wms, self.mat.mut), (self.wls, self.lis.mut)) if on] + (["(zs .0)"] if self.has_store else []) + ([self.wus.replace("ws", "ws₂")] if self.ans else [])
        lens_ = ["sameM"] * self.mat.mut + ["sameL"] * self.lis.mut + ["sameR"] * self.has_store + ["sameA"] * self.ans
        ms_v = "(ws₂ .1 .0)" if self.mat.mut else "ms"
        ls_v = "(ws₂ .1 .1 .0)" if self.lis.mut else "ls"
        if self.has_store:
            law = "(%s z ms ls ys wk %s X₀ %s %s %s %s %s t₂ (zs .0) (good₁ .1 .0 .1) (good₂ .1 .0 .1) e₁ (e₂ .0) e₃, e₂ .1)" % (self.call["law"], " ".join(self.extra), self.X1, ms_v, ls_v, self.X2, "")
        else:
            law = "(e₂ ∙ %s z ms ls ys wk%s X₀ %s (good₁ .1 .0 .1) e₁)" % (self.call["law"], self.told_too, self.X1)
        g.emit("by ! (exits t₂ w₂ %s %s %s)" % (" ".join(fin_vals), law.replace("  ", " "), " ".join(lens_)))
        s.append(g.text() + "\n\n")

    def theorem(self):
        symbol = {"lk": "task-records·looked-at", "ld": "loading·load", "co": "%s-part·%s-part" % (self.name, self.name), "th": "%s-call·task-held" % self.name, "pt": "task-records·past", "st": "storing·store"}
        self.s.append(theorem(self.name, self.slices, self.vals_fn, self.tells_fn, self.goes, self.actuals, self.cited, symbol))

    def walk(self):
        self.enters()
        self.parts_owned()
        self.makes_array()
        self.counts()
        self.calls_load()
        self.loaded()
        self.load_done()
        self.calls_part()
        self.part_tells()
        self.part_done()
        if self.has_store:
            self.calls_store()
            self.stored()
        self.leaves()

    def text(self):
        for section in (self.owns, self.lends, self.head, self.defines, self.exits, self.looked_at_and_load, self.part, self.task_held_and_past,
                        self.store, self.walk, self.theorem):
            section()
        self.s[1] = uses_of("".join(self.s[:1] + self.s[2:]))
        return "".join(self.s)


def write(call, folder=ROOT):
    save(folder, call["name"] + "_call", call["name"], Call(call).text())


CALLS = [
    dict(name="open", params=[sizes(), matrix(False), lists(True), records(True), workers()],
         reply="CallReply", said="openCall z", store="all", laws="All", law="open-whole",
         locals=dict(top=23, flat=6, n=7, reply=8, zero=9, len=10, unit=11, shr=12, mut=14, lis=16, core=18, rec=20, imm=22)),
    dict(name="take", params=[sizes(), matrix(False), lists(False), records(True), workers(), number("w", "usize"), number("p", "usize")],
         reply="CallReply", said="takeCall z w p", store="one", laws="One", law="take-whole",
         locals=dict(top=23, flat=8, n=9, reply=10, zero=11, len=12, unit=13, shr=14, mut=16, core=18, rec=20, imm=22, p=7)),
    dict(name="column", params=[sizes(), matrix(True), lists(True), records(True), workers(), number("w", "usize")],
         reply="CallReply", said="columnCall z w", store="one", held=True, laws="One", law="column-whole",
         locals=dict(top=27, flat=7, n=8, reply=9, p=10, zero=11, len=12, unit=13, shr=14, mut=16, mat=18, lis=20, core=22, rec=24, imm=26)),
    dict(name="run", params=[sizes(), matrix(True), lists(True), records(True), workers(), number("budget", "u64")],
         reply="RunReply", said="runCall z budget", store="all", laws="All", law="run-whole",
         locals=dict(top=26, flat=7, n=8, reply=9, zero=10, len=11, unit=12, shr=13, mut=15, mat=17, lis=19, core=21, rec=23, imm=25)),
    dict(name="outcome", params=[sizes(), matrix(False), lists(False), records(False), workers()],
         reply="OutcomeAnswer", said="outcomeCall z", store=None, laws="All", law="outcome-whole",
         locals=dict(top=14, flat=6, n=7, reply=0, zero=8, len=9, unit=10, mut=11, core=13)),
    dict(name="solve", params=[sizes(), matrix(False), lists(False), records(False), workers(), right(), answers()],
         reply="Answer", spec="Solve", said="solveCall z", store=None, laws="All", law="solve-whole",
         locals=dict(top=18, flat=8, n=9, reply=0, zero=10, len=11, unit=12, mut=13, core=15, ans=17)),
]

if __name__ == "__main__":
    for c in CALLS:
        write(c)
