"""Tests of tools/small_changes: the changes that its patterns make of a small source, how they join in one program, and its list of equal programs."""
import unittest

from loading import load

small_changes = load("small_changes")

SOURCE = '''//! A source.

use crate::lent::{DONE, FAILED};

pub const MOST: usize = 16;

/// Refusals 2 and 3.
pub fn accept(told: u64, lent: &[f64]) -> Result<(), Refusal> {
    let name = "a < b";
    if told < 1 || told > 16 {
        return refuse(2, 0);
    }
    if lent.len() != MOST && !lent.is_empty() {
        return refuse(3, told); // 5 < 6
    }
    for offset in 0..lent.len() {
        place(lent, offset);
    }
    Ok(())
}

impl Lent {
    fn mark(&self, k: usize) -> u8 {
        match k {
            0 => DONE,
            1 => self.first as u8,
            _ => 4,
        }
    }
}

impl Default for Lent {
    fn default() -> Lent {
        Lent { first: 3 }
    }
}
'''


def made(source=SOURCE):
    return [change for _, change in small_changes.changes_of("lent", source)]


class Changes(unittest.TestCase):
    def after(self, before):
        return [change.after for change in made() if change.before == before]

    def test_condition(self):
        after = self.after("if told < 1 || told > 16 {")
        for line in ("if told <= 1 || told > 16 {", "if told < 1 && told > 16 {", "if told < 1 || told >= 16 {", "if told < 2 || told > 16 {",
                     "if told < 1 || told > 17 {", "if told < 1 || told > 15 {", "if told > 16 {", "if told < 1 {", "if true {", "if false {"):
            self.assertIn(line, [" ".join(text.split()) for text in after])

    def test_cut_to_fewer_bits(self):
        cut = [change for change in made() if change.what.startswith("cut") and change.owner == "accept"]
        self.assertEqual([change.what for change in cut], ["cut to 8 bits", "cut to 32 bits"])
        self.assertIn("let told = told & 255;", cut[0].text)

    def test_order_of_refusals(self):
        exchanged = [change.text for change in made() if change.what == "statements exchanged"]
        self.assertTrue(any(text.index("refuse(3, told)") < text.index("refuse(2, 0)") for text in exchanged))

    def test_statements_and_arguments(self):
        dropped = [change.text for change in made() if change.what == "statement dropped"]
        self.assertTrue(any("refuse(2, 0)" not in text for text in dropped))
        self.assertIn("place(offset, lent);", self.after("place(lent, offset);"))
        self.assertIn("for offset in 0..(lent.len() - 1) {", self.after("for offset in 0..lent.len() {"))

    def test_arms_and_names(self):
        texts = [change.text for change in made() if change.owner == "mark"]
        self.assertTrue(any("0 => self.first as u8,\n            1 => DONE," in text for text in texts))
        self.assertTrue(any("0 => FAILED," in text for text in texts))

    def test_what_stays(self):
        for change in made():
            self.assertNotEqual(change.owner, "default")
            for other in ("a <= b", "5 <= 6", "6 < 6"):
                self.assertNotIn(other, change.text)
        self.assertEqual(len({(change.owner, change.text) for change in made()}), len(made()))
        self.assertEqual([change.key() for change in made()], [change.key() for change in made()])

    def test_constants(self):
        after = [change.after for change in small_changes.constants_of("lent", SOURCE)]
        self.assertEqual(after, ["pub const MOST: usize = 17;", "pub const MOST: usize = 15;"])

    def test_one_program(self):
        accept, mark = small_changes.functions(SOURCE)
        self.assertIn("match crate::small_change() { 7 => return accept_7(told, lent), 9 => return accept_9(told, lent), _ => {} }\n", accept.chooses([7, 9]))
        self.assertIn("3 => return self.mark_3(k), ", mark.chooses([3]))
        change = next(change for change in made() if change.owner == "mark")
        self.assertIn("fn mark_5(&self, k: usize) -> u8 {", mark.copy(change, 5))


class Equal(unittest.TestCase):
    def test_list_has_changes_that_are_made(self):
        texts = small_changes.sources()
        changes = [change for source, text in texts.items() for _, change in small_changes.changes_of(source, text)]
        changes += [change for source, text in texts.items() for change in small_changes.constants_of(source, text)]
        keys = {change.key() for change in small_changes.numbered(changes)}
        self.assertGreater(len(keys), 2000)
        for key, reason in small_changes.equal_programs().items():
            self.assertIn(key, keys)
            self.assertTrue(reason)


if __name__ == "__main__":
    unittest.main()
