"""Tests of tools/contracts_table: docs/CONTRACTS.md is up to date, and every function on it has two must-fail edits. The edits that
docs/ARCHITECTURE.md names exist. What is promised to callers is promised for whatever they lend and tell."""
import os
import re
import shutil
import tempfile
import unittest

from loading import ROOT, load, text_of

contracts = load("contracts_table")


class Contracts(unittest.TestCase):
    def test_page_is_up_to_date(self):
        self.assertEqual(text_of("docs", "CONTRACTS.md"), contracts.page(), "run tools/contracts_table")

    def test_two_edits_for_each_function(self):
        for _, names in contracts.PRODUCT:
            for function, functions in contracts.chosen(names):
                self.assertGreaterEqual(len(list(contracts.edits(function, functions))), 2, function.path)

    def test_edits_of_the_architecture_exist(self):
        page = text_of("docs", "ARCHITECTURE.md")
        named = re.findall(r"`(\w+)/(\w+)`", page[page.index("## Programs that the promises shut out"):])
        self.assertGreater(len(named), 30)
        for crate, name in named:
            self.assertTrue(os.path.exists(os.path.join(ROOT, "crates", crate, "must-fail", name + ".edit")), "%s/%s" % (crate, name))


# The sections of the page whose functions may be lent and told anything.
FREE_SECTIONS = ["Calls, with task records as structs", "Calls, with task records as bytes", "Files", "The library for hosts",
                 "Theorems"]


def free_functions():
    for crate in sorted(os.listdir(os.path.join(ROOT, "crates"))):
        yield from filter(contracts.is_free, contracts.functions_of(crate))


def with_requires(text, name, clause):
    """A source in which the function of that name requires something, in a clause that has a name, or has none."""
    start = re.search(r"\bfn %s\s*\(" % name, text).end() - 1
    after = contracts.group_end(text, start, "(", ")")
    place = re.compile(r"\bensures\b|\{").search(text, after).start()
    return text[:place] + "requires%s { 1 ≤ 0 }\n    " % clause + text[place:]


class Promises(unittest.TestCase):
    def test_nothing_is_required(self):
        self.assertEqual([], [function.path for function in contracts.narrowed()], "a promise is narrowed by a requires")

    def test_nothing_is_promised_under_a_condition(self):
        found = [(function.path, contracts.said(clause)) for function in free_functions() for clause in function.clauses if "→" in clause]
        self.assertEqual(found, [("input_due::bytes_due", "(text : List ℕ) → take 7 text ≡ take 7 front.now "
                                                          "→ program (take result text) ≡ program text")])

    def test_all_that_is_promised_is_free(self):
        free = {function.path for function in free_functions()}
        for name in contracts.FREE:
            self.assertTrue(any(path.startswith(name) if name.endswith("::") else path == name for path in free), name)
        for title, names in contracts.PRODUCT:
            if title in FREE_SECTIONS:
                self.assertLessEqual({function.path for function, _ in contracts.chosen(names)}, free)
        for crate in sorted(os.listdir(os.path.join(ROOT, "crates"))):
            if crate.startswith("host_") or crate.endswith("_call"):
                exported = [function.path for function in contracts.functions_of(crate)
                            if 'extern "C"' in function.text or function.public and crate.endswith("_call")]
                self.assertLessEqual(set(exported), free)
        self.assertEqual(set(FREE_SECTIONS), {title for title, _ in contracts.PRODUCT} & set(FREE_SECTIONS))
        for path in ["host_run::solumivaf_run", "printing::print_result", "solumivaf::main::main", "demand::order_does_not_matter"]:
            self.assertIn(path, free)

    def test_a_requires_is_found(self):
        for at, function in enumerate(free_functions()):
            with self.subTest(function.path), tempfile.TemporaryDirectory() as root:
                source = os.path.join(root, "crates", function.crate, "src")
                shutil.copytree(os.path.join(ROOT, "crates", function.crate, "src"), source)
                self.assertEqual([], contracts.narrowed(root))
                path = os.path.join(source, *(function.path.split("::")[1:-1] or ["lib"])) + ".rt"
                with open(path, encoding="utf-8") as file:
                    text = with_requires(file.read(), function.name, ("", " bounded")[at % 2])
                with open(path, "w", encoding="utf-8") as file:
                    file.write(text)
                found = contracts.narrowed(root)
                self.assertEqual([function.path], [other.path for other in found])
                self.assertEqual("1 ≤ 0", contracts.said(found[0].needs[0]))

    def test_no_clause_is_overlooked(self):
        for clause in ["requires { 1 ≤ 0 }", "requires bounded { 1 ≤ 0 }", "ensures { result ≡ 0 }", "ensures zero { result ≡ 0 }"]:
            with self.subTest(clause), tempfile.TemporaryDirectory() as root:
                source = os.path.join(root, "crates", "strange", "src")
                os.makedirs(source)
                with open(os.path.join(source, "lib.rt"), "w", encoding="utf-8") as file:
                    file.write("pub strange fn run()\n    %s\n{}\n" % clause)
                with self.assertRaises(contracts.Bad):
                    contracts.narrowed(root)

    def test_clauses_are_told_apart(self):
        """Each clause of a function is found by itself, with a name or without one, whatever braces it holds."""
        with tempfile.TemporaryDirectory() as root:
            source = os.path.join(root, "crates", "plain", "src")
            os.makedirs(source)
            with open(os.path.join(source, "lib.rt"), "w", encoding="utf-8") as file:
                file.write("pub fn one<T: Fn(u8) -> Vec<u8>>(x: &mut [T]) -> usize\n    requires first { x.old ≡ record { a = 1; } }\n"
                           "    requires { 1 ≤ 2 }\n    ensures kept { x.new ≡ x.old }\n    ensures { result ≡ 0 }\n{\n    0\n}\n")
            function, = contracts.functions_of("plain", root)
            self.assertEqual([contracts.said(need) for need in function.needs], ["x.old ≡ record { a = 1; }", "1 ≤ 2"])
            self.assertEqual([contracts.said(clause) for clause in function.clauses], ["x.new ≡ x.old", "result ≡ 0"])


if __name__ == "__main__":
    unittest.main()
