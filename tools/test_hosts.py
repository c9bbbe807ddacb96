"""Tests of the declarations that hosts link by: hosts/solumivaf.h, hosts/solumivaf/src/raw.rs, those in bench/src and in a test of hosts/solumivaf
have the functions that crates host_* and bench_* export, and the structs that cross, with the same names, order and types."""
import re
import unittest

from loading import text_of

C = {"size_t": "usize", "double": "f64", "uint8_t": "u8", "uint16_t": "u16", "uint32_t": "u32", "uint64_t": "u64", "solumivaf_record": "Record",
     "solumivaf_told": "Told", "solumivaf_read": "Read"}
RATTLE = {"ReadTold": "Read"}
BYTES = {"u8": 1, "u16": 2, "u32": 4}


def parameters(text):
    return [part.strip() for part in text.split(",") if part.strip()]


def exported(crate):
    """The functions of a crate as a linker has them: a slice is a pointer and a length, an array or a single number that is lent a pointer."""
    for name, listed, told in re.findall(r'pub extern "C" fn (\w+)\(([^)]*)\) -> (\w+)', text_of("crates", crate, "src", "lib.rt")):
        passed = []
        for own, kind in (part.split(": ", 1) for part in parameters(listed)):
            lent = re.fullmatch(r"&(mut )?(\[)?(\w+)(; \w+)?\]?", kind)
            element = RATTLE.get(lent.group(3), lent.group(3)) if lent else kind
            passed.append((own, "*%s %s" % ("mut" if lent.group(1) else "const", element) if lent else element))
            if lent and lent.group(2) and not lent.group(4):
                passed.append((own + "_length", "usize"))
        yield name, passed, RATTLE.get(told, told)


def declared_in_c(text):
    for told, name, listed in re.findall(r"^(\w+) (solumivaf_\w+)\(([^)]*)\);", text, re.M):
        passed = [] if listed == "void" else parameters(listed)
        found = [re.fullmatch(r"(const )?(\w+) (\*?)(\w+)", " ".join(part.split())).groups() for part in passed]
        yield name, [(own, ("*const " if const else "*mut " if star else "") + C.get(kind, kind)) for const, kind, star, own in found], C[told]


def declared_in_rust(text):
    for name, listed, told in re.findall(r"^    (?:pub )?fn (\w+)\(([^)]*)\) -> (\w+);", text, re.M):
        if name != "clock_gettime":
            yield name, [tuple(part.split(": ")) for part in parameters(listed)], told


def fields_of(name, text):
    return re.findall(r"(\w+): (\w+|\[u8; \d+\]),", re.search(r"struct %s \{([^}]*)\}" % name, text).group(1))


def fields_in_c(name, text):
    fields = re.findall(r"(\w+) (\w+)(?:\[(\d+)\])?;", re.search(r"typedef struct \{([^}]*)\} %s;" % name, text).group(1))
    return [(own, "[%s; %s]" % (C[kind], count) if count else C[kind]) for kind, own, count in fields]


def in_bytes(fields):
    """A struct's fields as they are lent in bytes: a u16 in two, a u32 in four."""
    return [(own, "u8" if kind == "u8" else "[u8; %d]" % BYTES[kind]) for own, kind in fields]


def exports(*crates):
    return [function for crate in crates for function in exported(crate)]


class Hosts(unittest.TestCase):
    def test_library(self):
        crates = re.search(r"^crates=\(([^)]*)\)", text_of("hosts", "build"), re.M).group(1).split()
        library = exports(*crates)
        self.assertEqual(len(library), 12)
        self.assertEqual(list(declared_in_c(text_of("hosts", "solumivaf.h"))), library)
        self.assertEqual(list(declared_in_rust(text_of("hosts", "solumivaf", "src", "raw.rs"))), library)

    def test_version(self):
        header = re.search(r"^#define SOLUMIVAF_VERSION (\d+)$", text_of("hosts", "solumivaf.h"), re.M).group(1)
        self.assertIn("pub const VERSION: u32 = %s;" % header, text_of("hosts", "solumivaf", "src", "lib.rs"))
        self.assertIn("\nVERSION = %s\n" % header, text_of("hosts", "python", "solumivaf.py"))
        self.assertIn("const VERSION: usize = %s;" % header, text_of("crates", "host_start", "src", "lib.rt"))

    def test_structs(self):
        header, wrapper = text_of("hosts", "solumivaf.h"), text_of("hosts", "solumivaf", "src", "lib.rs")
        for own, name, c_name in (("Told", "Told", "solumivaf_told"), ("ReadTold", "Read", "solumivaf_read")):
            fields = fields_of(own, text_of("crates", "host_answers", "src", "lib.rt"))
            self.assertEqual(fields_in_c(c_name, header), fields)
            self.assertEqual(fields_of(name, wrapper), fields)

    def test_records(self):
        """The library is lent a record's fields in bytes, in the struct's order, as many as crates/records says; bench_structs is lent the struct."""
        fields = fields_of("TaskRecord", text_of("crates", "model", "src", "lib.rt"))
        length = sum(BYTES[kind] for _, kind in fields)
        self.assertEqual(length, 16)
        self.assertIn("pub const RECORD: usize = %d;" % length, text_of("crates", "records", "src", "lib.rt"))
        in_c = fields_in_c("solumivaf_record", text_of("hosts", "solumivaf.h"))
        self.assertEqual(in_c, in_bytes(fields))
        self.assertEqual(fields_of("Record", text_of("hosts", "solumivaf", "src", "lib.rs")), in_c)
        for path in (("bench", "src", "structs.rs"), ("hosts", "solumivaf", "tests", "structs.rs")):
            self.assertEqual(fields_of("TaskRecord", text_of(*path)), fields)

    def test_benchmark(self):
        for crate, source, count in (("bench_host", "main.rs", 4), ("bench_structs", "structs.rs", 5)):
            timed = [function for function in exports(crate) if function[0] != "bench_outcome"]
            self.assertEqual(len(timed), count)
            self.assertEqual(list(declared_in_rust(text_of("bench", "src", source))), timed)
        self.assertEqual(list(declared_in_rust(text_of("hosts", "solumivaf", "tests", "structs.rs"))), exports("bench_structs"))


if __name__ == "__main__":
    unittest.main()
