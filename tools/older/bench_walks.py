#!/usr/bin/env python3
"""Writes the walks of the functions that bench/ calls over records that are structs: crates/bench_structs/proofs/bench_CALL/Proof.antt.

usage: python3 -B tools/bench_walks.py     (from anywhere)

Such a function makes the workers, hands everything lent on to crates/CALL_call, and tells a number. A walk is written as in call_walks.py.
"""
from call_walks import ROOT, SLICE, Walk, answers, callee, exit_steps, lists, matrix, nested, nth, number, product, records, right, save, seps, sizes, sub, theorem, uses_of

CRATE = "bench_structs"
WIDTH = {"usize": "w64", "u64": "w64", "u32": "w32", "u16": "w16", "u8": "w8"}
WORKERS = "Wk.the-row"
SIZES = "LL.vals Sz.the-type Sz′.the-laws"


def reference(p):
    return "rs" if p.name == "records" else SLICE[p.name][5]


def values(p):
    """The values that a parameter has, as a list."""
    if p.kind == "slice":
        return "s%s ∷ []" % SLICE[p.name][0]
    return SIZES + " z" if p.kind == "sizes" else "vint %s %s ∷ []" % (WIDTH[p.kind], p.name)


def own_value(p):
    if p.kind == "sizes":
        return "owned ! Sz.the-row (Is Sz.the-row) (LL.makes Sz.the-type Sz′.the-plain 𝓤 H A) z _ z-is $ fjoin ! $ "
    return "owned ! %s (Is %s) (uint-makes 𝓤 H A W %s) %s _ (refl, %s-fits) $ fjoin ! $ " % (p.kind, p.kind, WIDTH[p.kind], p.name, p.name)


class Call:
    """The proof of one function: its sections in the order in which they stand in it. Each adds to `s`, and those of the walk to `g`."""

    def __init__(self, call):
        self.call, self.name, self.params, self.told_of = call, call["name"], call["params"], call["passes"]
        self.reply, self.result = call["reply"], call["result"]
        self.maker, self.made_of = call["made"]
        self.function = "bench_" + self.name
        self.slices = [p for p in self.params if p.kind == "slice"]
        self.muts = [p for p in self.slices if p.mut]
        self.indices = [SLICE[p.name][0] for p in self.slices]
        self.tokens = ["κ" + k for k in self.indices]
        self.borrows = [SLICE[p.name][4] for p in self.slices]
        self.lifetimes, self.shares = nested(self.tokens), nested(["q" + k for k in self.indices])
        self.token_items = ["‵ (flft κ%s q%s)" % (k, k) for k in self.indices]
        self.ends = [(p, SLICE[p.name][6]) for p in self.muts]
        # a list for each use of the parameters
        self.types, self.args, self.vals_fn, self.tells, self.passed = [], [], [], [], []
        self.stays, self.goes, self.rows, self.bound_params, self.actuals = [], [], [], [], []

    def drops(self, slot):
        """a parameter that is given up as it is"""
        self.stays.append("stay-dropped %s yes" % slot)
        self.goes.append("goes-dropped 𝓤 H A W %d %s yes (λ κs x f. refl)" % (len(self.slices), slot))

    def owns_slice(self, p, path):
        """a slice: how it is passed, owned and given up"""
        k, element, ty, xs = SLICE[p.name][:4]
        life = self.slices.index(p)
        slot = "(plain (λ _. %s))" % ty
        self.types.append("RefT (List %s)" % element)
        self.args.append(reference(p))
        self.vals_fn.append("slice-vals")
        self.tells.append("%s-slice-tells (named %d) (%s) %s" % ("mut" if p.mut else "shr", life, nth("κs", life), ty))
        self.rows.append("%s (named %d) κ%s %s" % ("MutSlice" if p.mut else "ShrSlice", life, k, ty))
        self.bound_params.append("(b%s o%s : ℕ) (γ%s : GName) (%s : List %s) (room%s : Room %s (length %s))" % (k, k, k, xs, element, k, ty, xs))
        self.actuals.append("(a%s .ptr .0) (a%s .ptr .1) (a%s .name) (a%s .now) (are%s .0 .1)" % ((path,) * 5))
        self.passed.append("s" + k)
        if p.mut:
            self.stays.append("gave-slice (%d ∷ []) tt %s" % (life, slot))
            self.goes.append("goes-gave-slice 𝓤 H A W %d %d tt %s" % (len(self.slices), life, slot))
            return
        self.drops("(shrSliceOf (%d ∷ []) tt %s)" % (life, slot))

    def owns_value(self, p, path):
        """sizes or a number: how they are passed, owned and given up"""
        if p.kind == "sizes":
            self.types.append("Sizes")
            self.args.append("z")
            self.vals_fn.append(SIZES)
            self.tells.append("LL.tells Sz.the-type Sz′.the-laws")
            self.rows.append("Sz.the-row")
            self.bound_params.append("(z : Sizes) (z-is : Is Sz.the-row z (%s z))" % SIZES)
            self.actuals.append("(a%s) (are%s)" % (path, path))
            self.passed.append("zv")
            self.drops("(plain (λ _. Sz.the-row))")
        else:
            width = WIDTH[p.kind]
            self.types.append("ℕ")
            self.args.append(p.name)
            self.vals_fn.append("uint-vals " + width)
            self.tells.append("uint-tells " + width)
            self.rows.append(p.kind)
            self.bound_params.append("(%s : ℕ) (%s-fits : %s < 2 ^ %s)" % (p.name, p.name, p.name, width[1:]))
            self.actuals.append("(a%s) (are%s .1)" % (path, path))
            self.passed.append("vint %s %s" % (width, p.name))
            self.drops("(plain (λ _. %s))" % p.kind)

    def owns(self):
        for j, p in enumerate(self.params):
            path = " .1" * j + " .0"
            if p.kind == "slice":
                self.owns_slice(p, path)
            else:
                self.owns_value(p, path)
        self.passed = " ∷ ".join(self.passed) + " ∷ []"

    def head(self):
        """what the walk uses, and the contracts that it cites"""
        here = "Rattle·%s·proofs.proofs." % CRATE
        self.cited = [("Make", "mk"), ("Core", "co"), ("Tell", "tl")]
        self.s = [callee(here + self.maker, "mk"), callee("Rattle·%s_call.proofs.%s" % (self.name, self.name), "co"), callee(here + self.call["tell"], "tl")]
        self.s.append("use %s.Key.{name as #f}\nuse %s as f\nuse %s.Statement as stated\nuse %s.Code as code\n\n" % ((here + self.function,) * 4))
        self.s.append("abbrev stayed : Stays (f.ended .signature .params) (f.ended .kept)\nstayed = %s\n\n" % nested(self.stays))
        self.s.append("module _ {M : Type 1} (𝓤 : URA M) (H : Heap 𝓤) (A : Atoms 𝓤) (mem : Memory → SProp 𝓤) (run : Routine → Fun 𝓤) where\n  -- the contracts that the proof cites\n")
        for contract, n in self.cited:
            self.s.append("  abbrev %s : Contract 𝓤\n  %s = tripleOf 𝓤 H A %s.signature (%s.spec 𝓤 H A mem run)\n\n" % (contract, contract, n, n))
        self.s.append("module _ {M : Type 1} (𝓤 : URA M) (H : Heap 𝓤) (A : Atoms 𝓤) (W : Given 𝓤 H A) (mem : Memory → SProp 𝓤) (run : Routine → Fun 𝓤) (%s : Lft) (%s : Share)\n    %s where\n" % (" ".join(self.tokens), " ".join("q" + k for k in self.indices), "\n    ".join(self.bound_params)))

    def abbrev(self, n, ty, value):
        self.s.append("  abbrev %s : %s\n  %s = %s\n\n" % (n, ty, n, value))

    def defines(self):
        """the short names of the walk"""
        self.abbrev("Arg", "Type 0", product(self.types))
        for p in self.slices:
            k, element, _, xs = SLICE[p.name][:4]
            self.abbrev(reference(p), "RefT (List %s)" % element, "record { ptr = (b%s, o%s); name = γ%s; now = %s }" % (k, k, k, xs))
        self.abbrev("a", "Arg", nested(self.args))
        for p in self.slices:
            k, xs = SLICE[p.name][0], SLICE[p.name][3]
            self.abbrev("s" + k, "Val", "sliceVal (b%s, o%s) (length %s)" % (k, k, xs))
        self.abbrev("zv", "Val", "LL.val Sz.the-type Sz′.the-laws z")
        self.abbrev("vs", product(["List Val"] * len(self.params)), nested([values(p) for p in self.params]))
        for p, row in zip(self.slices, [r for r, p in zip(self.rows, self.params) if p.kind == "slice"]):
            self.abbrev(SLICE[p.name][4], "Fml", "%s .own %s (s%s ∷ [])" % (row, reference(p), SLICE[p.name][0]))
        self.bound = "((%s, %s, tt, a, vs), tt)" % (self.lifetimes, self.shares)
        self.s.append("  abbrev Post : Val → SProp 𝓤\n  Post = walkOf 𝓤 H A f.ended stayed (f.clauses 𝓤 H A mem run) .post %s\n\n" % self.bound)

    def exits(self):
        """from what is owned at the end to what the contract says"""
        s = self.s
        owned = self.token_items + ["‵ (finally %s γ%s %s)" % (SLICE[p.name][2], SLICE[p.name][0], v) for p, v in self.ends] + ["‵ (%s .own r (v ∷ []))" % self.result]
        items = " ∷ ".join(owned) + " ∷ []"
        last = {p.name: v for p, v in self.ends}
        same = "".join(" → length %s ≡ length %s" % (v, SLICE[p.name][3]) for p, v in self.ends)
        s.append("  exits : (r : ℕ) (v : Val) %s → (%s)%s\n      → ent 𝓤 (⋆ 𝓤 H A (%s)) (Post v)\n" % (" ".join("(%s : List %s)" % (v, SLICE[p.name][1]) for p, v in self.ends), self.call["fact"], same, items))
        s.append("  exits r v %s e %s =\n" % (" ".join(v for _, v in self.ends), " ".join("len" + SLICE[p.name][0] for p in self.muts)))
        s.append(exit_steps(self, items, [last.get(p.name, "tt") for p in self.params], ["len" + SLICE[p.name][0] if p in self.muts else "tt" for p in self.params], self.muts))

    def workers(self):
        """how the workers are made"""
        s = self.s
        self.made, self.slots = nested([p.name for p in self.made_of]), self.call["slots"]
        s.append("  -- `%s`\n  abbrev to-mk : Make 𝓤 H A mem run .Ghost\n  to-mk = ((tt, tt, tt, %s, %s), tt)\n\n" % (self.maker, self.made, nested([values(p) for p in self.made_of])))
        s.append("  goes-mk : ent 𝓤 (sem 𝓤 H A ftrue) (Make 𝓤 H A mem run .pre to-mk)\n  goes-mk = unasked 𝓤 (qed W (‵ ftrue ∷ []) ∵ frame ! $ nothing ! $ %sdone !)\n\n" % "".join(own_value(p) for p in reversed(self.made_of)))
        s.append("  said-mk : (t : Workers) → ent 𝓤 (ensured 𝓤 H A mk.ended (mk.clauses 𝓤 H A mem run) tt %s tt t) (fact 𝓤 (t ≡ %s))\n  said-mk t = exE 𝓤 _ (λ ws. snd∗ 𝓤 (sem 𝓤 H A (lasts mk.ended tt %s ws)) (fact 𝓤 (t ≡ %s)))\n\n" % (self.made, self.slots, self.made, self.slots))

    def core(self):
        """how the call is made"""
        s = self.s
        self.order = self.params[:4] + [None] + self.told_of
        self.given = lambda t: nested([t if p is None else reference(p) if p.kind == "slice" else "z" if p.kind == "sizes" else p.name for p in self.order])
        s.append("  -- `%s_call::%s`\n  abbrev to-co : Workers → Val → Core 𝓤 H A mem run .Ghost\n  to-co t v = ((%s, %s, tt, %s, %s), tt)\n\n" % (self.name, self.name, self.lifetimes, self.shares, self.given("t"), nested(["v ∷ []" if p is None else values(p) for p in self.order])))
        s.append("  goes-co : (t : Workers) (v : Val) → ent 𝓤 (sep 𝓤 %s (sep 𝓤 %s (sem 𝓤 H A (%s .own t (v ∷ []))))) (Core 𝓤 H A mem run .pre (to-co t v))\n" % (seps(["(A .lft κ%s q%s)" % (k, k) for k in self.indices]), seps(["(sem 𝓤 H A %s)" % x for x in self.borrows]), WORKERS))
        s.append("  goes-co t v =\n      unasked 𝓤 (qed W ((%s) ∷ (%s) ∷ ‵ (%s .own t (v ∷ [])) ∷ []) ∵ " % (" ⊛ ".join(self.token_items), " ⊛ ".join("‵ " + x for x in self.borrows), WORKERS))
        c = Walk()
        c.ctx = ["tokens", "borrows", "array"]
        c.apart("tokens", list(self.tokens))
        c.emit("\n      ")
        c.front("all", "nothing ! $ ")
        for x in reversed(self.tokens):
            c.move(x, "all")
            c.join("all")
        c.gone("frame ! $ ")
        c.apart("borrows", list(self.borrows))
        c.emit("\n      ")
        c.front("all", "nothing ! $ ")
        for p in reversed(self.told_of):
            if p.kind == "slice":
                c.passes(SLICE[p.name][4])
            else:
                c.emit(own_value(p))
        for x in ("array", "Rec", "Lis", "Mat"):
            c.passes(x)
        s.append("".join(c.out).replace(" $ \n", " $\n").rstrip() + "\n      owned ! Sz.the-row (Is Sz.the-row) (LL.makes Sz.the-type Sz′.the-plain 𝓤 H A) z _ z-is $ fjoin ! $ done !)\n\n")
        s.append("  abbrev Told : (t : Workers) (r : %s) %s → Type 0\n  Told t r %s = %s\n\n" % (self.reply, " ".join("(%s : List %s)" % (v, SLICE[p.name][1]) for p, v in self.ends), " ".join(v for _, v in self.ends), self.call["told"]))

    def tell(self):
        """how the reply is told"""
        s = self.s
        self.of_reply = self.call["number"]
        s.append("  -- `%s`\n  abbrev to-tl : %s → Val → Tell 𝓤 H A mem run .Ghost\n  to-tl r v = ((tt, tt, tt, (r, tt), (v ∷ [], tt)), tt)\n\n" % (self.call["tell"], self.reply))
        s.append("  goes-tl : (r : %s) (v : Val) → ent 𝓤 (sem 𝓤 H A (Rp.the-row .own r (v ∷ []))) (Tell 𝓤 H A mem run .pre (to-tl r v))\n  goes-tl r v = unasked 𝓤 (qed W (‵ (Rp.the-row .own r (v ∷ [])) ∷ []) ∵ nothing ! $ frame ! $ nothing ! $ move ! (1 ∷ 0 ∷ []) $ fjoin ! $ done !)\n\n" % self.reply)
        s.append("  said-tl : (r : %s) (t : ℕ) → ent 𝓤 (ensured 𝓤 H A tl.ended (tl.clauses 𝓤 H A mem run) tt (r, tt) tt t) (fact 𝓤 (t ≡ %s))\n  said-tl r t = exE 𝓤 _ (λ ws. snd∗ 𝓤 (sem 𝓤 H A (lasts tl.ended tt (r, tt) ws)) (fact 𝓤 (t ≡ %s)))\n\n" % (self.reply, self.of_reply % "r", self.of_reply % "r"))

    def enters(self):
        """the walk's start: locals and parameters"""
        s = self.s
        self.local = self.call["locals"]
        self.top = self.local["top"]
        g = self.g = Walk()
        s.append("  module _ (C : Calls 𝓤 H) (Λ : Loops 𝓤 H) (fm : FmC 𝓤 H (W .laws) C) %s where\n" % " ".join("(known-%s : Triple 𝓤 (C #%s) (%s 𝓤 H A mem run))" % (n, n, x) for x, n in self.cited))
        s.append("    walk : ent 𝓤 (onEntry 𝓤 H A f.signature %s %s a vs) (WpFn 𝓤 H C Λ code.function (%s) Post)\n    walk =\n        " % (self.lifetimes, self.shares, self.passed))
        g.emit("qed W ((%s ⊛ ‵ ftrue) ∷ ‵ (owns (%s ∷ []) a vs) ∷ []) ∵ enter ! C Λ code.function (%s) _ $ " % (" ⊛ ".join(self.token_items), " ∷ ".join(self.rows), self.passed))
        g.line()
        g.emit("".join("alloc1 ! (λ l%s. " % sub(i) for i in range(self.top + 1)) + "alloc0 ! $ params1 ! $ ")
        g.line()
        for i in range(self.top, -1, -1):
            g.ctx += ["L%d" % i, "D%d" % i]
        self.locals = list(g.ctx)
        g.ctx += ["tokens", "owns"]
        for j, p in enumerate(self.params):
            if p.kind == "slice":
                typed = "(tt, (tt, (record { fits = room%s .0 }, tt)))" % SLICE[p.name][0]
            elif p.kind == "sizes":
                typed = "(LL.lawful Sz.the-type Sz′.the-laws 𝓤 H A W .typed z _ z-is .0)"
            else:
                typed = "(tt, record { fits = %s-fits })" % p.name
            g.emit("pass1 ! (init ! %d refl %s) $ " % (g.at("L%d" % (j + 1)), typed))
        g.emit("pass0 ! $ ")
        g.line()

    def parts_owned(self):
        """what is owned comes apart"""
        g = self.g
        g.emit("-- the tokens and the borrows to the front; then the locals, the last first, each with what says that it dies")
        g.line()
        rest = "owns"
        for j in range(self.params.index(self.slices[-1]) + 1):
            g.move(rest)
            rest = "rest%d" % j
            g.split("own%d" % j, rest, "f")
        rest = "tokens"
        for k in self.tokens:
            g.move(rest)
            rest = "rest" + k
            g.split(k, rest)
        for p in self.slices:
            g.ctx[g.at("own%d" % self.params.index(p))] = SLICE[p.name][4]
        g.keep(self.tokens + self.borrows + self.locals)
        g.line()
        self.at = {p.name: self.params.index(p) + 1 for p in self.params}

    def lend(self, names):
        """a slice that is written goes on at its own lifetime, through a local"""
        for p in self.muts:
            if p.name in names:
                self.g.slice_to(self.local[p.name], self.local[p.name] + 1, self.params.index(p) + 1, "room" + SLICE[p.name][0])
                self.at[p.name] = self.local[p.name] + 1

    def makes_workers(self):
        """the walk over the workers"""
        g = self.g
        self.lend(("matrix", "lists", "records"))
        g.emit("-- the workers")
        g.line()
        g.front("true", "nothing ! $ ")
        g.use(1, "pre", "raw (Make 𝓤 H A mem run .pre to-mk)", "goes-mk")
        g.emit("calls-at ! fm (Make 𝓤 H A mem run) known-mk to-mk %s (λ w₀. " % g.opds([self.at[p.name] for p in self.made_of]))
        g.line()
        g.use(1, "post", "later (some (λ (t : Workers). (‵ ftrue ⊛ ‵ (%s .own t (w₀ ∷ []))) ⊛ raw (ensured 𝓤 H A mk.ended (mk.clauses 𝓤 H A mem run) tt %s tt t)))" % (WORKERS, self.made), "id⊢ 𝓤 _")
        g.emit("await ! tt $ pick ! (λ t₀. ")
        g.split("back", "ensured")
        g.move("ensured")
        g.use(1, "fact", "raw (fact 𝓤 (t₀ ≡ %s))" % self.slots, "said-mk t₀")
        g.gone("heard ! (t₀ ≡ %s) (λ e₀. " % self.slots)
        g.split("true", "array")
        g.gone("drop ! $ ")
        g.emit("peeks ! (%s) (Is (%s)) (shows 𝓤 H A (%s)) t₀ (w₀ ∷ []) (λ is₀. " % (WORKERS, WORKERS, WORKERS))
        g.line()
        g.emit("land ! (from ! (stop !)) (init ! %d refl (LL.lawful Wk.the-type Wk′.the-laws 𝓤 H A W .typed t₀ _ is₀ .0)) $ " % g.at("L%d" % self.local["slots"]))
        g.line()
        self.lend(("answers",))

    def calls(self):
        """the walk over the call"""
        g = self.g
        g.emit("-- the call")
        g.line()
        for names, whole in ((self.tokens, "tokens"), (self.borrows, "borrows")):
            rest = names[-1]
            for x in reversed(names[:-1]):
                g.move(x, rest)
                rest = whole
                g.join(rest)
        g.move("tokens", "borrows", "array")
        g.line()
        g.use(3, "pre", "raw (Core 𝓤 H A mem run .pre (to-co t₀ w₀))", "goes-co t₀ w₀")
        g.emit("calls-at ! fm (Core 𝓤 H A mem run) known-co (to-co t₀ w₀) %s (λ w₁. " % g.opds([self.local["slots"] if p is None else self.at[p.name] for p in self.order]))
        g.line()
        g.use(1, "post", "later (some (λ (t : %s). ((%s ⊛ ‵ ftrue) ⊛ ‵ (Rp.the-row .own t (w₁ ∷ []))) ⊛ raw (ensured 𝓤 H A co.ended (co.clauses 𝓤 H A mem run) %s %s tt t)))" % (self.reply, " ⊛ ".join(self.token_items), self.lifetimes, self.given("t₀")), "id⊢ 𝓤 _")
        g.emit("await ! tt $ pick ! (λ t₁. ")
        g.split("back", "ensured")
        g.move("ensured")
        g.line()

    def called(self):
        """what the call leaves, and its reply"""
        g = self.g
        told = lambda ws: "Told t₀ t₁ " + " ".join("(%s)" % nth(ws, self.order.index(p)) for p in self.muts)
        g.use(1, "ensured", "some (λ (ws : %s). ‵ (lasts co.ended %s %s ws) ⊛ raw (fact 𝓤 (%s)))" % (product(["List " + SLICE[p.name][1] if p in self.muts else "Unit {0}" for p in self.order]), self.lifetimes, self.given("t₀"), told("ws")), "id⊢ 𝓤 _")
        g.emit("pick ! (λ ws₁. ")
        g.split("lasts", "fact")
        g.move("fact")
        g.gone("heard ! (%s) (λ e₁. " % told("ws₁"))
        g.line()
        for p in self.order[:max([self.order.index(p) + 1 for p in self.muts], default=0)]:
            g.move("lasts")
            g.split("last", "lasts", "f")
            if p in self.muts:
                g.split("end " + p.name, "same", "f")
                g.move("same")
                g.gone("feqL ! (λ same-%s. " % p.name)
            else:
                g.gone("drop ! $ ")
        g.move("lasts")
        g.gone("drop ! $ ")
        g.line()
        g.move("back")
        g.split("tokens", "reply")
        g.move("reply")
        g.emit("peeks ! Rp.the-row (Is Rp.the-row) (shows 𝓤 H A Rp.the-row) t₁ (w₁ ∷ []) (λ is₁. ")
        g.emit("land ! (from ! (stop !)) (init ! %d refl (%s .typed t₁ _ is₁ .0)) $ " % (g.at("L%d" % self.local["reply"]), "EL.lawful Rp.the-type Rp′.the-laws 𝓤 H A W tt" if self.reply.endswith("Answer") else "LL.lawful Rp.the-type Rp′.the-laws 𝓤 H A W"))
        g.line()

    def tells_reply(self):
        """the walk over what is told"""
        g = self.g
        g.emit("-- what is told")
        g.line()
        g.use(1, "pre", "raw (Tell 𝓤 H A mem run .pre (to-tl t₁ w₁))", "goes-tl t₁ w₁")
        g.emit("calls-at ! fm (Tell 𝓤 H A mem run) known-tl (to-tl t₁ w₁) %s (λ w₂. " % g.opds([self.local["reply"]]))
        g.line()
        g.use(1, "post", "later (some (λ (t : ℕ). (‵ ftrue ⊛ ‵ (%s .own t (w₂ ∷ []))) ⊛ raw (ensured 𝓤 H A tl.ended (tl.clauses 𝓤 H A mem run) tt (t₁, tt) tt t)))" % self.result, "id⊢ 𝓤 _")
        g.emit("await ! tt $ pick ! (λ t₂. ")
        g.split("back", "ensured")
        g.move("ensured")
        g.use(1, "fact", "raw (fact 𝓤 (t₂ ≡ %s))" % (self.of_reply % "t₁"), "said-tl t₁ t₂")
        g.gone("heard ! (t₂ ≡ %s) (λ e₂. " % (self.of_reply % "t₁"))
        g.split("true", "number")
        g.gone("drop ! $ ")
        g.emit("peeks ! %s (Is %s) (shows 𝓤 H A %s) t₂ (w₂ ∷ []) (λ is₂. " % (self.result, self.result, self.result))
        g.emit("land ! (from ! (stop !)) (init ! %d refl (uint-lawful 𝓤 H A W %s .typed t₂ _ is₂ .0)) $ " % (g.at("L0"), WIDTH[self.result]))
        g.line()

    def leaves(self):
        """the walk's end"""
        g = self.g
        for x in self.tokens[:-2]:
            g.move("tokens")
            g.split(x, "tokens")
        g.move("tokens")
        g.split3(self.tokens[-2], self.tokens[-1], "true")
        g.leaves(self.top)
        g.keep(self.tokens + ["end " + p.name for p in self.muts] + ["number"])
        g.emit("by ! (exits t₂ w₂ %s (%s) %s)" % (" ".join("(%s)" % nth("ws₁", self.order.index(p)) for p in self.muts), self.call["law"], " ".join("same-" + p.name for p in self.muts)))
        self.s.append(g.text() + "\n\n")

    def theorem(self):
        symbol = {"mk": CRATE + "·" + self.maker, "co": "%s_call·%s" % (self.name, self.name), "tl": CRATE + "·" + self.call["tell"]}
        symbol = {n: x.replace("_", "-") for n, x in symbol.items()}
        self.s.append(theorem(self.function.replace("_", "-"), self.slices, self.vals_fn, self.tells, self.goes, self.actuals, self.cited, symbol))

    def walk(self):
        self.enters()
        self.parts_owned()
        self.makes_workers()
        self.calls()
        self.called()
        self.tells_reply()
        self.leaves()

    def text(self):
        for section in (self.owns, self.head, self.defines, self.exits, self.workers, self.core, self.tell, self.walk, self.theorem):
            section()
        body = "".join(self.s)
        head = "-- `%s` meets its contract: a walk of its MIR. What is lent goes on to the call at its own lifetime. Written by tools/bench_walks.py.\n-- Assumes nothing.\n" % self.function
        return head + uses_of(body, MORE_USES.replace("REPLY", self.reply)) + body


def write(call, folder=ROOT):
    save(folder, CRATE, "bench_" + call["name"], Call(call).text())


MORE_USES = """use mir.Syntax.{w16, w32}
use denote.Builtin.{u16, u32}
use denote.Enum.Laws as EL
use Rattle·model.specs.declared.REPLY.{REPLY}
use Rattle·model.proofs.REPLY as Rp
use Rattle·model.proofs.REPLY.Laws as Rp′
use Rattle·model.specs.Buffer.{Buffers}
use Rattle·model.specs.Calls.{Lent}
use Rattle·model.specs.Refusal.{answerNumber, openCall, takeCall, columnCall, runCall, outcomeCall}
use Rattle·model.specs.Solve.{solveCall}
use Rattle·bench_structs·specs.specs.Bench.{idles, oneHolding, callsOf, outcomeTells}
use Rattle·bench_structs·proofs.proofs.Laws.{replies, ran, solves, outcome-told}
"""


def changes(call, m, l, law="replies", slots="idles (z .workers) number", number="answerNumber"):
    """What a call's reply says, what the function's contract says, and how the one follows from the other. A take leaves matrix and lists."""
    left = "%s (whole ms ls ys (%s))" % (call, slots)
    fact = ["(r ≡ %s (%s .answer))" % (number, left), "(zs ≡ %s .left .records)" % left]
    follows = "%s ms %s ls %s ys (%s) t₀ (%s) e₀ t₂ (%s) t₁ (e₁ .0) e₂" % (law, m if m == "ms" else "(%s)" % nth("ws₁", 1), l if l == "ls" else "(%s)" % nth("ws₁", 2), nth("ws₁", 3), slots, call)
    if (m, l) == ("ms", "ls"):
        follows = "let x = %s in (x .0, x .2)" % follows
    else:
        fact.insert(1, "(_≡_ {A = Buffers} (record { matrix = %s; lists = %s }) (%s .left .buffers))" % (m, l, left))
    told = "(record { answer = r .answer; left = whole %s %s zs (r .workers) } ≡ %s (whole ms ls ys t)) × OthersKept t (r .workers)" % (m, l, call)
    return dict(fact=" × ".join(fact), told=told, law=follows, slots=slots, number=number + " (%s .answer)")


W, P, TASK, COLUMN, BUDGET = number("w", "usize"), number("p", "usize"), number("p", "u16"), number("c", "u8"), number("budget", "u64")
NUMBER = number("number", "u32")
RIGHT, ANSWERS = right(), answers()
IDLE = ("idle_workers", [sizes(), NUMBER])
OUTCOME = "outcomeCall z (whole ms ls ys %s)"
SOLVED = "solveCall z (whole ms ls ys %s) bs us"
CALLS = [
    dict(name="open", params=[sizes(), matrix(False), lists(True), records(True), NUMBER], passes=[], made=IDLE, reply="CallReply", result="u8", tell="number_in",
         locals=dict(top=11, reply=6, lists=7, records=9, slots=11), **changes("openCall z", "ms", "ls′")),
    dict(name="take", params=[sizes(), matrix(False), lists(False), records(True), NUMBER, W, P], passes=[W, P], made=IDLE, reply="CallReply", result="u8", tell="number_in",
         locals=dict(top=11, reply=8, records=9, slots=11), **changes("takeCall z w p", "ms", "ls")),
    dict(name="column", params=[sizes(), matrix(True), lists(True), records(True), NUMBER, W, TASK, COLUMN], passes=[W], made=("one_holding", [sizes(), NUMBER, TASK, COLUMN]), reply="CallReply", result="u8", tell="number_in",
         locals=dict(top=16, reply=9, matrix=10, lists=12, records=14, slots=16), **changes("columnCall z w", "ms′", "ls′", slots="oneHolding (z .workers) number p c")),
    dict(name="run", params=[sizes(), matrix(True), lists(True), records(True), NUMBER, BUDGET], passes=[BUDGET], made=IDLE, reply="RunReply", result="u64", tell="calls_in",
         locals=dict(top=14, reply=7, matrix=8, lists=10, records=12, slots=14), **changes("runCall z budget", "ms′", "ls′", law="ran", number="callsOf")),
    dict(name="outcome", params=[sizes(), matrix(False), lists(False), records(False), NUMBER], passes=[], made=IDLE, reply="OutcomeAnswer", result="u8", tell="outcome_number",
         locals=dict(top=7, reply=6, slots=7), slots="idles (z .workers) number", number="outcomeTells %s",
         fact="r ≡ outcomeTells (%s)" % (OUTCOME % "(idles (z .workers) number)"), told="r ≡ " + OUTCOME % "t",
         law="outcome-told ms ls ys t₀ (idles (z .workers) number) e₀ t₂ (outcomeCall z) t₁ e₁ e₂"),
    dict(name="solve", params=[sizes(), matrix(False), lists(False), records(False), NUMBER, RIGHT, ANSWERS], passes=[RIGHT, ANSWERS], made=IDLE, reply="Answer", result="u8", tell="number_of",
         locals=dict(top=11, reply=8, slots=9, answers=10), slots="idles (z .workers) number", number="answerNumber %s",
         fact="(r ≡ answerNumber (%s .answer)) × (us′ ≡ %s .left)" % ((SOLVED % "(idles (z .workers) number)",) * 2), told="record { answer = r; left = us′ } ≡ " + SOLVED % "t",
         law="solves ms ls ys t₀ (idles (z .workers) number) e₀ t₂ (λ (s : Lent). solveCall z s bs us) t₁ (%s) e₁ e₂" % nth("ws₁", 6)),
]

if __name__ == "__main__":
    for c in CALLS:
        write(c)
