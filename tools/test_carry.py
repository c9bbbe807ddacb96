"""Tests of tools/carry: proofs carried over a statement, a call and a branch that were added to three functions, over an expression that moved to a
statement of its own, and each form of a chain.

A case of carry_cases/ has the walks of the old and the new code, the proof, and what carrying it gives, which rt proved as it stands.
"""
import os
import unittest

from loading import ROOT, load, text_of

import carry_proof
import carry_walk

load("carry")

OLD = """function f 1 asked
params s n
takes Inv-loop s n i₀ i
takes μ-loop s n i₀ i
place Start - - - -
place After-slice-known Start slice-known a -
place After-sum After-slice-known sum b -
place Joined1 After-sum if1 - ⊎,if1,=,if1,=
place At-loop Joined1 loop - -
place In-loop At-loop loop-test - -
place After-loop At-loop loop-test - -
need sum-requires After-slice-known src/lib.rt:2:1 c κs = ?
need loop-holds Joined1 src/lib.rt:4:1 c = ?
need add-i In-loop src/lib.rt:5:1 c = ?
need returns After-loop src/lib.rt:7:1 c = ?
"""

# a call of `sum` before the other, and a loop before the other
NEW = """function f 2 asked
params n s
takes Inv-loop s n most k₀ k
takes μ-loop s n most k₀ k
takes Inv-loop2 s n most i₀ i
takes μ-loop2 s n most i₀ i
place Start - - - -
place After-slice-known Start slice-known a -
place After-sum After-slice-known sum c -
place At-loop After-sum loop - -
place In-loop At-loop loop-test - -
place After-loop At-loop loop-test - -
place After-sum2 After-loop sum2 b -
place Joined1 After-sum2 if1 - ⊎,if1,=,if1,=
place At-loop2 Joined1 loop2 - -
place In-loop2 At-loop2 loop2-test - -
place After-loop2 At-loop2 loop2-test - -
need sum-requires After-slice-known src/lib.rt:2:1 c κs = search needs
need loop-holds After-sum src/lib.rt:3:1 c = ?
need add-k In-loop src/lib.rt:4:1 c = ?
need sum-requires-2 After-loop src/lib.rt:6:1 c κs = ?
need loop2-holds Joined1 src/lib.rt:8:1 c = ?
need add-i In-loop2 src/lib.rt:9:1 c = ?
need returns After-loop2 src/lib.rt:11:1 c = ?
"""

OLD_FILE = {"src/lib.rt": "{\nlet a = sum(s);\nif a > 3 {\nwhile i < n {\ni += 1;\n}\nend\n}"}
NEW_FILE = {"src/lib.rt": "{\nlet most = sum(s);\nwhile k < n {\nk += 1;\n}\nlet a = sum(s);\nif a > 3 {\nwhile i < n {\ni += 1;\n}\nend\n}"}


def walk(text):
    return next(iter(carry_walk.read(text)[0].values()))


def carrier():
    old, new = walk(OLD), walk(NEW)
    return carry_proof.Carrier(old, new, *carry_walk.pairs(old, new, OLD_FILE, NEW_FILE))


def carried(text):
    return carrier().carry(text)


def sections(text):
    """The parts of a case, each under its title."""
    parts = text.split("==== ")[1:]
    return {part.split("\n", 1)[0]: part.split("\n", 1)[1] for part in parts}


class Cases(unittest.TestCase):
    def case(self, name):
        parts = sections(text_of("tools", "carry_cases", name + ".txt"))
        (old, old_files), (new, new_files) = carry_walk.read(parts["old"]), carry_walk.read(parts["new"])
        function = next(iter(old))
        a, b = old[function], new[function]
        one = carry_proof.Carrier(a, b, *carry_walk.pairs(a, b, old_files, new_files))
        self.assertEqual(one.carry(parts["proof"]), parts["carried"])
        self.assertEqual(one.left, [])
        back = carry_proof.Carrier(b, a, *carry_walk.pairs(b, a, new_files, old_files))
        self.assertEqual(back.carry(parts["carried"]), parts["proof"])
        for w, files, proof in (a, old_files, parts["proof"]), (b, new_files, parts["carried"]):
            same = carry_proof.Carrier(w, w, *carry_walk.pairs(w, w, files, files))
            self.assertEqual(same.carry(proof), proof)
            self.assertEqual((same.moved, same.renamed, same.notes, same.left), (0, 0, [], []))
        return one

    def test_all_are_tested(self):
        self.assertEqual(sorted(os.listdir(os.path.join(ROOT, "tools", "carry_cases"))), ["branch.txt", "call.txt", "moved.txt", "statement.txt"])

    def test_statement(self):
        one = self.case("statement")
        self.assertEqual((one.notes, one.holes), ([], False))

    def test_moved(self):
        one = self.case("moved")
        self.assertEqual([note.split(": ", 1)[1].split(" (")[0] for note in one.notes], ["mul-fill-numbers is asked no longer: taken out", "new: mul-size"])
        self.assertTrue(one.notes[1].endswith("answered as mul-fill-numbers was"))
        self.assertFalse(one.holes)

    def test_call(self):
        one = self.case("call")
        self.assertEqual([note.split(": ")[2].split()[0] for note in one.notes], ["tile-start-requires", "column-end-requires"])
        self.assertFalse(one.holes)

    def test_branch(self):
        one = self.case("branch")
        self.assertEqual([note.split(": ")[2].split()[0] for note in one.notes], ["add-result", "returns"])


LTS = """  abbrev s0 : Typed.Gives T0 T2
  s0 =
      Know.k-sl-known T0 1 %s
      λ x. x

        pub record Args : Type 0 where
          pub s : Kinds.Den
          pub n : Kinds.Den

          pub record Ranges : Type 0 where
            pub n : Val.Fits

      pub record Start : Type 0 where
        pub args : Args κs

        pub record After-slice-known·own : Type 0 where
          pub given : s0 .gives (m0 before·)

      pub record After-slice-known : Type 0 where
        pub before : Start
        pub slice-known : After-slice-known·own before

      abbrev pub Need-sum-requires : Type 0
      Need-sum-requires =
          (c : After-slice-known) → s5 .asks (m5 (c .before))

        pub record Joined1·own : Type 0 where
          pub r : Row
          pub came : Logic._⊎_
              ((if1 : Then1·own before·) × Path'._≡_ r m13)
              ((if1 : Else1·own before·) × (sum : After-sum·own) × Path'._≡_ r m15)

      pub record Joined1 : Type 0 where
        pub before : After-slice-known
        pub if1 : Joined1·own before
"""

PRINTED = """fn f: no proof
help: write /x/crates/k/proofs/a/f/Proof.antt with these lines, and check again
    abbrev Inv-loop : tie.InvT-loop
    Inv-loop s n i₀ i =
        ?

    -- src/lib.rt:2:9
    sum-requires :
        tie.Need-sum-requires Inv-loop
    sum-requires c κs = search needs

logic=not-proved
"""


class Reading(unittest.TestCase):
    def test_records(self):
        found = carry_walk.read_lts("a/f", LTS % 7)
        self.assertEqual((found.params, list(found.places)), (["s", "n"], ["Start", "After-slice-known", "Joined1"]))
        self.assertEqual([(p.before, p.own) for p in found.places.values()],
                         [(None, "-"), ("Start", "slice-known"), ("After-slice-known", "if1")])
        self.assertEqual(found.places["Joined1"].sides, "⊎,if1,=,if1,sum,=")
        self.assertEqual(found.needs["sum-requires"].place, "After-slice-known")

    def test_renumbered(self):
        one, local, param = (carry_walk.read_lts("f", LTS % n).places["After-slice-known"].what for n in (7, 8, 2))
        self.assertEqual(one, local)
        self.assertNotEqual(one, param)

    def test_printed(self):
        found = carry_walk.read_lts("a/f", LTS % 7)
        carry_walk.read_skeleton(found, carry_walk.skeletons(PRINTED)["a/f"])
        need = found.needs["sum-requires"]
        self.assertEqual((need.at, need.binds, need.answer), ("src/lib.rt:2:9", "c κs", "search needs"))
        self.assertEqual((found.takes, found.asked), ({"Inv-loop": ["s", "n", "i₀", "i"]}, True))


class Pairs(unittest.TestCase):
    def test_places(self):
        places, needs = carry_walk.pairs(walk(OLD), walk(NEW), OLD_FILE, NEW_FILE)
        self.assertEqual(places, {"Start": "Start", "After-slice-known": "After-slice-known", "After-sum": "After-sum2", "Joined1": "Joined1",
                                  "At-loop": "At-loop2", "In-loop": "In-loop2", "After-loop": "After-loop2"})
        self.assertEqual(needs, {"sum-requires": "sum-requires-2", "loop-holds": "loop2-holds", "add-i": "add-i", "returns": "returns"})

    def test_text(self):
        walks, files = carry_walk.read("file src/lib.rt\n|a\n|\n|b\n" + OLD)
        self.assertEqual(files, {"src/lib.rt": "a\n\nb"})
        self.assertEqual(carry_walk.written(walks, files), "file src/lib.rt\n|a\n|\n|b\n" + OLD)

    def test_moved(self):
        known = "place After-known %s known e -\n"
        before, after = "place After-sum After-slice-known", "place Joined1 After-sum if1"
        early = OLD.replace(before, known % "After-slice-known" + "place After-sum After-known")
        late = OLD.replace(after, known % "After-sum" + "place Joined1 After-known if1")
        for one, two in (early, late), (late, early):
            self.assertEqual(carry_walk.pairs(walk(one), walk(two), OLD_FILE, OLD_FILE)[0], {name: name for name in walk(one).places})
        twice = late.replace("place Joined1 After-known", "place After-known2 After-known known2 e -\nplace Joined1 After-known2")
        for other in twice, late.replace("known e", "known f"):
            self.assertNotIn("After-known", carry_walk.pairs(walk(early), walk(other), OLD_FILE, OLD_FILE)[0])

    def test_another_name(self):
        places, needs = carry_walk.pairs(walk(OLD), walk(OLD.replace("loop", "turns").replace("add-i", "add-j")), OLD_FILE, OLD_FILE)
        self.assertEqual((places["In-loop"], places["After-loop"], needs["add-i"]), ("In-turns", "After-turns", "add-j"))
        self.assertNotIn("loop-holds", needs)


class Forms(unittest.TestCase):
    HEAD = "use X as tie\n\nabbrev Inv-loop : tie.InvT-loop\nInv-loop s n i₀ i = i ≤ n\n\n"
    ADD = "add-i : tie.Need-add-i Inv-loop μ-loop\nadd-i c = "

    def answer(self, term):
        text = carried(self.HEAD + "abbrev μ-loop : tie.MeasureT-loop\nμ-loop s n i₀ i = n - i\n\n" + self.ADD + term + "\n")
        return text.split("\nadd-i c = ")[1].rstrip("\n")

    def test_chains(self):
        self.assertEqual(self.answer("c .before .loop .inv"), "c .before .loop2 .inv")
        self.assertEqual(self.answer("f (c .before .before .before .sum .ensures) (c .before .before .before .before .before .args .n)"),
                         "f (c .before .before .before .sum2 .ensures) (c" + " .before" * 8 + " .args .n)")
        self.assertEqual(self.answer("c .loop-test .taken ∙ c .before .before .before .before .slice-known .given"),
                         "c .loop2-test .taken ∙ c" + " .before" * 7 + " .slice-known .given")

    def test_let(self):
        self.assertEqual(self.answer("let d = c .before .before .before .before in d .before .pre"),
                         "let d = c" + " .before" * 7 + " in d .before .pre")
        self.assertEqual(self.answer("let d : T = c .before .before .before .before .before .args in d .n"),
                         "let d : T = c" + " .before" * 8 + " .args in d .n")

    def test_hidden(self):
        kept = "f (λ c. c .before .before .before .before .x) (c .before .loop)"
        self.assertEqual(self.answer(kept), kept.replace(".loop", ".loop2"))

    def test_brackets(self):
        self.assertEqual(self.answer("(c .before .before .before) .before .slice-known"),
                         "(c .before .before .before)" + " .before" * 4 + " .slice-known")

    def test_came(self):
        old, new = walk(OLD), walk(OLD.replace("⊎,if1,=,if1,=", "⊎,if1,sum2,=,if1,="))
        one = carry_proof.Carrier(old, new, *carry_walk.pairs(old, new, OLD_FILE, OLD_FILE))
        text = "loop-holds : tie.Need-loop-holds\nloop-holds c = f (λ u. u .1) (c .if1 .came)\n"
        self.assertEqual(one.carry(text), text)
        self.assertEqual([line.split(": ")[1] for line in one.left], ["what came by an arm has other parts"])

    def test_gone(self):
        back = {new: old for old, new in carrier().places.items()}
        one = carry_proof.Carrier(walk(NEW), walk(OLD), back, {new: old for old, new in carrier().needs.items()})
        one.carry("add-i : tie.Need-add-i\nadd-i c = c" + " .before" * 6 + " .sum .result\n\n\nadd-k : tie.Need-add-k\nadd-k c = 1\n")
        self.assertEqual(one.left, ["Proof.antt:2: After-sum is not on the way here any more"])
        self.assertEqual(one.notes[0], "Proof.antt:5: add-k is asked no longer: taken out")

    def test_lemmas(self):
        text = ("use X as tie\n\nabbrev entry : tie.In-loop → tie.Start\nentry c = c .before .before .before .before .before\n\n"
                "low : (c : tie.After-slice-known) → c .before .args .n < 3\nlow c = c .before .pre\n\n"
                "returns : tie.Need-returns\nreturns c = low (c .before .before .before .before) ∙ f c .0 ∙ entry c .pre\n")
        self.assertIn("entry : tie.In-loop2 → tie.Start\nentry c = c" + " .before" * 8 + "\n", carried(text))
        self.assertIn("returns c = low (c" + " .before" * 7 + ") ∙ f c .0 ∙ entry c .pre\n", carried(text))

    def test_argument(self):
        more = OLD.replace("place At-loop Joined1", "place After-t Joined1 t d -\nplace At-loop After-t")
        old, new = walk(OLD), walk(more.replace("holds Joined1", "holds After-t"))
        text = "split : tie.Joined1 → T\nsplit c = c .if1 .came\n\nloop-holds : tie.Need-loop-holds\nloop-holds c = split c .0 ∙ c .if1 .ones\n"
        more = text.replace("split c .0 ∙ c .if1", "split (c .before) .0 ∙ c .before .if1")
        there, back = (carry_proof.Carrier(a, b, *carry_walk.pairs(a, b, OLD_FILE, OLD_FILE)) for a, b in ((old, new), (new, old)))
        self.assertEqual(there.carry(text), more)
        self.assertEqual(back.carry(more), text)

    def test_parameters(self):
        self.assertEqual(self.answer("c" + " .before" * 5 + " .good .1 .0"), "c" + " .before" * 8 + " .good .0")
        self.assertEqual(self.answer("c" + " .before" * 5 + " .good .0 .1"), "c" + " .before" * 8 + " .good .1 .0 .1")

    def test_another_answer(self):
        text = ("sum-requires : tie.Need-sum-requires\nunfolding g\nsum-requires c κs =\n    f (c .before .pre) (c .slice-known .given)\n\n"
                "returns : tie.Need-returns\nreturns c = 1\n")
        old, new = walk(OLD), walk(NEW.replace("search needs", "?"))
        one = carry_proof.Carrier(old, new, *carry_walk.pairs(old, new, OLD_FILE, NEW_FILE))
        out = one.carry(text)
        self.assertIn("\nunfolding g\nsum-requires c κs =\n    f (c .before .pre) (c .slice-known .given)\n\n", out)
        later = "f (c" + " .before" * 4 + " .pre) (c .before .before .before .slice-known .given)"
        self.assertIn("\nunfolding g\nsum-requires-2 c κs =\n    " + later + "\n\n", out)
        self.assertIn("Proof.antt: new: sum-requires (src/lib.rt:2:1), answered as sum-requires-2 is", one.notes)

    def test_loops_and_spec(self):
        others = "".join("%s : tie.Need-%s Inv-loop μ-loop\n%s c = ?\n\n" % (x, x, x) for x in ("sum-requires", "loop-holds", "returns"))
        text = carried(self.HEAD + "abbrev μ-loop : tie.MeasureT-loop\nμ-loop s n i₀ i = n - i\n\n" + others + self.ADD + "search needs\n\n"
                       "pub f-spec : statement\nf-spec = tie.close (tie.spec Inv-loop μ-loop sum-requires loop-holds add-i returns)\n")
        self.assertIn("abbrev Inv-loop2 : tie.InvT-loop2\nInv-loop2 s n most i₀ i = i ≤ n\n", text)
        self.assertIn("abbrev Inv-loop : tie.InvT-loop\nInv-loop s n most k₀ k = ?\n", text)
        self.assertIn("μ-loop s n most k₀ k = ?\n\nsum-requires : tie.Need-sum-requires Inv-loop μ-loop Inv-loop2 μ-loop2\n", text)
        self.assertIn("\nsum-requires c κs = search needs\n", text)
        self.assertIn("add-i : tie.Need-add-i Inv-loop μ-loop Inv-loop2 μ-loop2\n", text)
        self.assertIn("(tie.spec Inv-loop μ-loop Inv-loop2 μ-loop2 sum-requires loop-holds add-k sum-requires-2 loop2-holds add-i returns)", text)
        self.assertEqual(text.count("use borrow.Author.Needs.{needs}"), 1)


if __name__ == "__main__":
    unittest.main()
