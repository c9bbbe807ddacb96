"""Tests of hosts/solumivaf.h and hosts/c/return.c, and of the C in hosts/README.md, with gcc and g++.

usage: python3 -B -m unittest discover hosts/tests     (from the root)

The library is in the folder SOLUMIVAF_LIB, else in target/staticlib.
"""
import os
import re
import struct
import subprocess
import sys
import tempfile
import unittest

ROOT = os.path.dirname(os.path.dirname(os.path.dirname(os.path.abspath(__file__))))
sys.path.insert(0, os.path.join(ROOT, "hosts", "python"))

import solumivaf

FOLDER = os.path.abspath(os.environ.get("SOLUMIVAF_LIB") or os.path.join(ROOT, "target", "staticlib"))
ARCHIVE = os.path.join(FOLDER, "libsolumivaf.a")
HEADER = os.path.join(ROOT, "hosts", "solumivaf.h")
RETURN = os.path.join(ROOT, "hosts", "c", "return.c")
WARNINGS = ["-Wall", "-Wextra", "-Wpedantic", "-Wconversion", "-Wshadow", "-Wcast-qual", "-Werror", "-I", os.path.dirname(HEADER)]
C11 = ["gcc", "-std=c11", "-Wstrict-prototypes"] + WARNINGS
EXAMPLES = ("small", "meter", "reel")

# Each constant: its value, and a word that the header's list has for it.
REFUSALS = {"SIZES": (1, "out of range"), "LENGTH": (2, "a length"), "NOT_FINITE": (3, "a number isn't finite"), "DAMAGED": (4, "damaged"),
            "WORKER": (5, "the worker named"), "NO_TASK": (6, "the task named does not exist"), "NOT_READY": (7, "not ready"),
            "TOO_EARLY": (8, "too early"), "OVERFLOW": (9, "overflow"), "SINGULAR": (10, "singular"), "SOLVING": (11, "a solve meets"),
            "MALFORMED": (12, "malformed"), "OUT_OF_ORDER": (13, "out of order"), "END": (14, "ends too early"), "SHORT_TEXT": (15, "too short")}
OTHERS = {"VERSION": 5, "MOST_TILES": 16, "MOST_SIDE": 16, "MOST_TASKS": 1496, "SLOTS": 32, "TASK_FACTOR": 1, "TASK_APPLY": 2, "TASK_COUPLE": 3,
          "TASK_PAIR": 4, "MARK_WAITING": 0, "MARK_TAKEN": 1, "MARK_DONE": 2, "MARK_FAILED": 3, "MARK_SPOILED": 4, "RUN_FINISHED": 1, "RUN_SPENT": 2,
          "OUTCOME_GOOD": 0, "OUTCOME_OVERFLOW": 1, "OUTCOME_SINGULAR": 2, "OUTCOME_UNFINISHED": 3}

# Prints what the test of the mode says, and the bits of the multiplier of the system 2 1 / x 1 with a subnormal x, in the mode that is named: by
# the direction of fesetround, or by the bits of MXCSR, or as it is.
MODE = r"""
#include <fenv.h>
#include <inttypes.h>
#include <stdio.h>
#include <stdlib.h>
#include <xmmintrin.h>
#include "solumivaf.h"

int main(int count, char **words) {
    double matrix[4] = {2, 1, 0, 1};
    uint64_t bits = UINT64_C(0x0000123456789ABC);
    uint8_t lists[2], busy[SOLUMIVAF_SLOTS], column[SOLUMIVAF_SLOTS];
    uint16_t task[SOLUMIVAF_SLOTS];
    uint32_t number;
    solumivaf_record records[1];
    memcpy(&matrix[2], &bits, sizeof bits);
    if (count == 3 && words[1][0] == 'r' && fesetround((int)strtol(words[2], NULL, 16)) != 0) return 1;
    if (count == 3 && words[1][0] == 'm') _mm_setcsr(_mm_getcsr() | (unsigned)strtoul(words[2], NULL, 16));
    int arithmetic = solumivaf_arithmetic() != 0;
    if (solumivaf_open(1, 2, 1, matrix, 4, lists, 2, records, 1, busy, task, column, 1, &number).number != 0) return 1;
    if (solumivaf_run(1, 2, 1, matrix, 4, lists, 2, records, 1, busy, task, column, 1, &number, UINT64_MAX).number != 0) return 1;
    memcpy(&bits, &matrix[2], sizeof bits);
    printf("%d %016" PRIX64, arithmetic, bits);
    return 0;
}
"""

# Prints the tie sums of the system 2 2 / -2 1, as one tile and as four. Then a sum is damaged: the solve is refused and changes nothing.
TIES = r"""
#include <stdio.h>
#include "solumivaf.h"

#define TASKS SOLUMIVAF_RECORDS_LENGTH(tiles)
#define LENT tiles, side, 1, matrix, 4, lists, SOLUMIVAF_LISTS_LENGTH(tiles, side), records, TASKS, busy, task, column, 1

static int sums(size_t tiles, size_t side) {
    double matrix[4] = {2, 2, -2, 1}, right[2] = {1, 1}, answers[2] = {5, 7};
    uint8_t lists[4], busy[SOLUMIVAF_SLOTS], column[SOLUMIVAF_SLOTS];
    uint16_t task[SOLUMIVAF_SLOTS];
    uint32_t number;
    solumivaf_record records[5], damaged[5];
    if (solumivaf_open(LENT, &number).number != 0 || solumivaf_run(LENT, &number, UINT64_MAX).number != 0) return 0;
    for (size_t p = 0; p < TASKS; p++) printf("%u ", solumivaf_ties(records[p]));
    records[0].ties[1] = 1;
    memcpy(damaged, records, TASKS * sizeof *records);
    return solumivaf_solve(LENT, number, right, 2, answers, 2).number == SOLUMIVAF_REFUSED_DAMAGED && answers[0] == 5 && answers[1] == 7
        && memcmp(damaged, records, TASKS * sizeof *records) == 0;
}

int main(void) { return sums(1, 2) && sums(2, 1) ? 0 : 1; }
"""

# Prints worker, take and end of each task of a system, which three workers do by single calls with a refused one after each, and the run's number.
# Then number and records are damaged, one by one: each bound is accepted, and what is one beyond it refused and left.
HISTORY = r"""
#include <stdio.h>
#include "solumivaf.h"

#define LENT 2, 1, 3, matrix, 4, lists, 4, records, 5, busy, task, column, 3

static double matrix[4] = {0.25, -0.125, -0.5, 1}, right[2] = {0.25, 4}, answers[2] = {5, 7};
static uint8_t lists[4], busy[SOLUMIVAF_SLOTS], column[SOLUMIVAF_SLOTS];
static uint16_t task[SOLUMIVAF_SLOTS];
static uint32_t number = UINT32_MAX;
static solumivaf_record records[5];

/* Whether a run without budget says that refusal, and leaves number and records. */
static int answers_with(uint8_t refusal) {
    uint32_t kept_number = number;
    solumivaf_record kept[5];
    memcpy(kept, records, sizeof kept);
    return solumivaf_run(LENT, &number, 0).number == refusal && number == kept_number && memcmp(kept, records, sizeof kept) == 0;
}

static int with_number(uint32_t other, uint8_t refusal) {
    uint32_t kept = number;
    number = other;
    int good = answers_with(refusal);
    number = kept;
    return good;
}

static int with_byte(uint8_t *byte, uint8_t other, uint8_t refusal) {
    uint8_t kept = *byte;
    *byte = other;
    int good = answers_with(refusal);
    *byte = kept;
    return good;
}

/* Worker and calls of each task, while the number is the highest of these calls and all that the marks allow. */
static int bounds(void) {
    const uint8_t damaged = SOLUMIVAF_REFUSED_DAMAGED;
    if (!with_number(number + 1, damaged) || !with_number(number - 1, damaged) || !with_number(UINT32_MAX, damaged)) return 0;
    for (int p = 0; p < 5; p++) {
        solumivaf_record *record = &records[p];
        if (!with_byte(&record->worker, 2, 0) || !with_byte(&record->worker, 3, damaged) || !with_byte(&record->worker, 255, damaged)) return 0;
        if (!with_byte(record->took, (uint8_t)number, 0) || !with_byte(record->ended, (uint8_t)number, 0)) return 0;
        if (!with_byte(record->took, (uint8_t)(number + 1), damaged) || !with_byte(record->ended, (uint8_t)(number + 1), damaged)) return 0;
        for (int at = 1; at < 4; at++)
            if (!with_byte(&record->took[at], 1, damaged) || !with_byte(&record->ended[at], 255, damaged)) return 0;
    }
    return 1;
}

int main(void) {
    const size_t order[5] = {0, 2, 1, 3, 4};
    memset(records, 255, sizeof records);
    if (solumivaf_open(LENT, &number).number != 0 || number != 0) return 1;
    for (size_t at = 0; at < 5; at++) {
        if (solumivaf_take(LENT, &number, at % 3, order[at]).number != 0 || number != 2 * at + 1) return 1;
        if (solumivaf_take(LENT, &number, at % 3, 0).number != SOLUMIVAF_REFUSED_WORKER || number != 2 * at + 1) return 1;
        if (!bounds()) return 1;
        if (solumivaf_column(LENT, &number, at % 3).number != 0 || number != 2 * at + 2) return 1;
        if (solumivaf_column(LENT, &number, at % 3).number != SOLUMIVAF_REFUSED_WORKER || number != 2 * at + 2) return 1;
        if (!bounds()) return 1;
    }
    for (int p = 0; p < 5; p++) printf("%d %u %u, ", records[p].worker, solumivaf_took(records[p]), solumivaf_ended(records[p]));
    printf("%u", number);
    if (solumivaf_outcome(LENT, number).kind != SOLUMIVAF_OUTCOME_GOOD || solumivaf_outcome(LENT, UINT32_MAX).number != 0) return 1;
    if (solumivaf_solve(LENT, number + 1, right, 2, answers, 2).number != SOLUMIVAF_REFUSED_DAMAGED) return 1;
    if (solumivaf_solve(LENT, number - 1, right, 2, answers, 2).number != SOLUMIVAF_REFUSED_DAMAGED) return 1;
    if (answers[0] != 5 || answers[1] != 7) return 1;
    return solumivaf_solve(LENT, number, right, 2, answers, 2).number == 0 && answers[0] == 4 && answers[1] == 6 ? 0 : 1;
}
"""

# Counts what is allocated and freed, lets the allocation named in FAILING fail, and ends with a signal where something is kept.
COUNTING = r"""
#include <stdlib.h>
void *__real_calloc(size_t count, size_t size);
void __real_free(void *buffer);
static long made, kept;
void *__wrap_calloc(size_t count, size_t size) {
    const char *failing = getenv("FAILING");
    made++;
    void *buffer = failing != NULL && atol(failing) == made ? NULL : __real_calloc(count, size);
    kept += buffer != NULL;
    return buffer;
}
void __wrap_free(void *buffer) {
    kept -= buffer != NULL;
    __real_free(buffer);
}
__attribute__((destructor)) static void none_kept(void) {
    if (kept != 0) abort();
}
"""


def text_of(path):
    with open(path, encoding="utf-8") as file:
        return file.read()


class Compiling(unittest.TestCase):
    """Compiles in a folder of its own."""

    def setUp(self):
        folder = tempfile.TemporaryDirectory()
        self.addCleanup(folder.cleanup)
        self.folder = folder.name

    def source(self, name, text):
        path = os.path.join(self.folder, name)
        with open(path, "w", encoding="utf-8") as file:
            file.write(text)
        return path

    def compiled(self, command, *arguments):
        """The program that the command makes of the sources and options."""
        path = os.path.join(self.folder, "program")
        done = subprocess.run(command + list(arguments) + ["-o", path], stdout=subprocess.PIPE, stderr=subprocess.STDOUT, universal_newlines=True)
        self.assertEqual((done.returncode, done.stdout), (0, ""))
        return path

    def printed(self, *command):
        done = subprocess.run(command, stdout=subprocess.PIPE, universal_newlines=True)
        self.assertEqual(done.returncode, 0)
        return done.stdout


class Header(Compiling):
    def test_alone(self):
        for suffix, command in ((".c", ["gcc", "-std=c99", "-Wstrict-prototypes"]), (".c", C11), (".cc", ["g++", "-std=c++11"])):
            source = self.source("alone" + suffix, '#include "solumivaf.h"\n')
            for level in ("-O0", "-O2"):
                self.compiled(command + WARNINGS, level, "-c", source)

    def test_constants(self):
        names = ["REFUSED_" + name for name in REFUSALS] + list(OTHERS)
        lines = "".join('    printf("%%d\\n", (int)SOLUMIVAF_%s);\n' % name for name in names)
        program = self.compiled(C11, self.source("names.c", '#include <stdio.h>\n#include "solumivaf.h"\nint main(void) {\n%s}\n' % lines))
        self.assertEqual([int(word) for word in self.printed(program).split()], [value for value, _ in REFUSALS.values()] + list(OTHERS.values()))
        text = text_of(HEADER)
        for value, words in REFUSALS.values():
            self.assertRegex(text, r"(?m)^ \*   +%d  [^\n]*%s" % (value, words))
        self.assertEqual(len(re.findall(r"(?m)^ \*   +\d+  ", text)), len(REFUSALS))

    def test_lengths(self):
        source = self.source("lengths.c", r"""
#include <stdio.h>
#include "solumivaf.h"
int main(void) {
    for (int n = 0; n < 16; n++) {
        for (uint8_t t = 0; t < 16; t++) {
            size_t one[] = {SOLUMIVAF_MATRIX_LENGTH(n + 1, t + 1), SOLUMIVAF_LISTS_LENGTH(n + 1, t + 1), SOLUMIVAF_RECORDS_LENGTH(n + 1),
                            SOLUMIVAF_RIGHT_LENGTH(n + 1, t + 1), SOLUMIVAF_SYSTEM_LENGTH(n + 1, t + 1), SOLUMIVAF_RESULT_LENGTH(n + 1, t + 1)};
            printf("%zu %zu %zu %zu %zu %zu\n", one[0], one[1], one[2], one[3], one[4], one[5]);
        }
    }
    return sizeof(SOLUMIVAF_RECORDS_LENGTH((uint8_t)1)) == sizeof(size_t) ? 0 : 1;
}
""")
        due = []
        for n in range(1, 17):
            for t in range(1, 17):
                tiles, lists = [6 + 16 * t * t + 1] * (n * n), [6 + 2 * t + 1 for i in range(n) for j in range(i + 1)]
                system = sum([7] + tiles)
                due.append([(n * t) ** 2, n * n * t, sum(k * k for k in range(n + 1)), n * t, system, system + sum(lists) + 9])
        lines = self.printed(self.compiled(C11, source)).splitlines()
        self.assertEqual([[int(word) for word in line.split()] for line in lines], due)

    def test_record(self):
        source = self.source("record.c", r"""
#include <stdio.h>
#include "solumivaf.h"
int main(void) {
    solumivaf_record records[2];
    uint8_t bytes[sizeof records];
    for (unsigned at = 0; at < sizeof bytes; at++) bytes[at] = (uint8_t)(0xE0 + at);
    memcpy(records, bytes, sizeof bytes);
    for (int at = 0; at < 2; at++) {
        solumivaf_record record = records[at];
        printf("%d %d %d %d %d %d ", record.kind, record.k, record.i, record.j, record.mark, record.worker);
        printf("%X %X %X\n", (unsigned)solumivaf_ties(record), (unsigned)solumivaf_took(record), (unsigned)solumivaf_ended(record));
    }
    return sizeof(solumivaf_record) == 16 && (const char *)&records[1] - (const char *)&records[0] == 16 ? 0 : 1;
}
""")
        for command in (C11, ["g++", "-std=c++11", "-x", "c++"] + WARNINGS):
            lines = self.printed(self.compiled(command, "-O2", source)).splitlines()
            self.assertEqual(lines, ["224 225 226 227 228 229 E7E6 EBEAE9E8 EFEEEDEC", "240 241 242 243 244 245 F7F6 FBFAF9F8 FFFEFDFC"])

    def test_ties(self):
        source = self.source("ties.c", TIES)
        for command in (C11, ["g++", "-std=c++11", "-x", "c++"] + WARNINGS):
            program = self.compiled(command, "-O2", source, "-x", "none", ARCHIVE)
            self.assertEqual(self.printed(program), "1 0 0 1 0 0 ")

    def test_history(self):
        source = self.source("history.c", HISTORY)
        for command in (C11, ["g++", "-std=c++11", "-x", "c++"] + WARNINGS):
            program = self.compiled(command, "-O2", source, "-x", "none", ARCHIVE)
            self.assertEqual(self.printed(program), "0 1 2, 2 5 6, 1 3 4, 0 7 8, 1 9 10, 10")

    def test_readme(self):
        blocks = re.findall(r"(?ms)^```c\n(.*?)^```$", text_of(os.path.join(ROOT, "hosts", "README.md")))
        self.assertTrue(blocks)
        for block in blocks:
            source = self.source("readme.c", block)
            for library in ([ARCHIVE], ["-L" + FOLDER, "-lsolumivaf", "-Wl,-rpath," + FOLDER]):
                self.assertEqual(self.printed(self.compiled(C11, "-O2", source, *library)), "4 6\n")


class Arithmetic(Compiling):
    RIGHT, FLUSHED = "0000091A2B3C4D5E", "0000000000000000"

    def test_default_mode(self):
        source = self.source("mode.c", MODE)
        for level in ("-O0", "-O2", "-O3"):
            self.assertEqual(self.printed(self.compiled(C11, level, source, ARCHIVE, "-lm")), "1 " + self.RIGHT)
        cc = self.source("mode.cc", MODE)
        self.assertEqual(self.printed(self.compiled(["g++", "-std=c++11"] + WARNINGS, "-O2", cc, ARCHIVE, "-lm")), "1 " + self.RIGHT)

    def test_options(self):
        source, thing = self.source("mode.c", MODE), os.path.join(self.folder, "mode.o")
        for option in ("-ffast-math", "-Ofast", "-funsafe-math-optimizations"):
            self.assertEqual(self.printed(self.compiled(C11, "-O2", option, source, ARCHIVE, "-lm")), "0 " + self.FLUSHED, option)
            # Compiled with the option and linked without it, the mode is the default.
            subprocess.run(C11 + ["-O2", option, "-c", source, "-o", thing], check=True)
            self.assertEqual(self.printed(self.compiled(C11, thing, ARCHIVE, "-lm")), "1 " + self.RIGHT, option)

    def test_modes(self):
        source, thing = self.source("mode.c", MODE), os.path.join(self.folder, "mode.o")
        for option in ("-O0", "-O3", "-Ofast"):
            subprocess.run(C11 + [option, "-c", source, "-o", thing], check=True)
            program = self.compiled(C11, thing, ARCHIVE, "-lm")
            self.assertEqual(self.printed(program, "r", "0"), "1 " + self.RIGHT)
            for direction in ("400", "800", "C00"):
                self.assertEqual(self.printed(program, "r", direction)[0], "0", direction)
            for control in ("2000", "4000", "6000", "8000", "40", "8040"):
                self.assertEqual(self.printed(program, "m", control)[0], "0", control)
            self.assertEqual(self.printed(program, "m", "8000"), "0 " + self.FLUSHED)
            self.assertEqual(self.printed(program, "m", "40"), "0 " + self.FLUSHED)


class Example(Compiling):
    def setUp(self):
        super().setUp()
        wraps = ["-Wl,--wrap=calloc", "-Wl,--wrap=free"]
        counting = os.path.join(self.folder, "counting.o")
        subprocess.run(["gcc", "-O2", "-c", self.source("counting.c", COUNTING), "-o", counting], check=True)
        self.program = self.compiled(C11, "-O2", RETURN, counting, ARCHIVE, *wraps)

    def run_it(self, *words, program=None, **more):
        more.setdefault("stdout", subprocess.PIPE)
        return subprocess.run([program or self.program] + list(words), stderr=subprocess.PIPE, universal_newlines=True, **more)

    def example(self, name, kind):
        return os.path.join(ROOT, "examples", name + kind)

    def fails(self, sentence, *words, **more):
        """The program ends with status 1, and says the sentence in one line and nothing else."""
        done = self.run_it(*words, **more)
        self.assertEqual((done.returncode, done.stdout or ""), (1, ""), done.stderr)
        self.assertRegex(done.stderr, r"\Areturn: [^\n]*%s[^\n]*\n\Z" % sentence)

    def test_answers(self):
        for name in EXAMPLES:
            done = self.run_it(self.example(name, ".system"), self.example(name, ".right"))
            self.assertEqual((done.returncode, done.stderr), (0, ""))
            tiles, side, matrix = solumivaf.read_system(text_of(self.example(name, ".system")).encode())
            lent = solumivaf.Lent(solumivaf.Sizes(tiles, side, 1), matrix)
            lent.open()
            lent.run()
            right = re.sub(r"#.*|,", " ", text_of(self.example(name, ".right"))).split()
            answers = [struct.pack(">d", answer) for answer in lent.solve([float(word) for word in right])]
            lines = [line.split() for line in done.stdout.splitlines()]
            self.assertEqual([(int(row), bytes.fromhex(bits)) for row, bits, _ in lines], list(enumerate(answers)))
            self.assertEqual([struct.pack(">d", float(decimal)) for _, _, decimal in lines], answers)
        small = self.run_it(self.example("small", ".system"), self.example("small", ".right"))
        self.assertEqual(small.stdout, "0 4010000000000000 4\n1 4018000000000000 6\n")

    def test_refused_systems(self):
        right = self.source("right", "1 1")
        lines = text_of(self.example("small", ".system")).splitlines(True)
        for number, place, text in ((14, 1, ""), (1, 1, "011101\n"), (12, 2, lines[0] + lines[1].lower()), (14, 5, "".join(lines[:-1])),
                                    (14, 6, "".join(lines) + "\n"), (3, 3, "".join(lines).replace("BFC", "7FF")),
                                    (13, 2, lines[0] + lines[2] + lines[1] + lines[3] + lines[4])):
            self.fails("refusal %d at place %d;" % (number, place), self.source("system", text), right)
        for number, place, matrix in ((10, 1, [1, 1, 1, 1]), (9, 3, [1, 1e308, -1, 1e308]), (11, 1, [1, 0, 0, 1e-308])):
            system = self.source("system", solumivaf.write_system(2, 1, matrix).decode())
            self.fails("refusal %d at place %d;" % (number, place), system, self.source("right", "1 1e10"))

    def test_right_sides(self):
        system = self.example("small", ".system")
        for text in ("1 2", "1,2", "# one, 2 3\n 1 # two\n\t2\n\n#", "0x1p0\n0x1p1"):
            self.assertEqual(self.run_it(system, self.source("right", text)).returncode, 0)
        for text in ("", "1", "1 # 2", "1 two", "1 2x", "one 2", "1-2 3", "1;2"):
            self.fails("a decimal is missing or malformed", system, self.source("right", text))
        for text in ("1 2 3", "1 2 x", "1 2\0"):
            self.fails("text follows the last decimal", system, self.source("right", text))
        for text in ("1 inf", "1 nan", "1 1e999"):
            self.fails("solve: refusal 3 at place 1;", system, self.source("right", text))

    def test_files_and_usage(self):
        system, right = self.example("small", ".system"), self.example("small", ".right")
        self.fails("usage: return SYSTEM RIGHT-SIDE")
        self.fails("usage: return SYSTEM RIGHT-SIDE", system)
        self.fails("cannot be opened", os.path.join(self.folder, "none"), right)
        self.fails("cannot be opened", system, os.path.join(self.folder, "none"))
        self.fails("cannot be read", self.folder, right)
        self.fails("longer than the largest system", "/dev/zero", right)
        with open("/dev/full", "w") as full:
            self.fails("standard output: cannot be written", system, right, stdout=full)

    def test_memory(self):
        words = self.example("meter", ".system"), self.example("meter", ".right")
        for failing in range(1, 6):
            self.fails("memory: there is too little", *words, env=dict(os.environ, FAILING=str(failing)))

    def test_mode_and_version(self):
        words = self.example("small", ".system"), self.example("small", ".right")
        self.fails("arithmetic: ", *words, program=self.compiled(C11, "-Ofast", RETURN, ARCHIVE))
        other = self.source("version.c", "#include <stddef.h>\nsize_t __wrap_solumivaf_version(void) { return 6; }\n")
        self.fails("library: ", *words, program=self.compiled(["gcc", "-I", os.path.dirname(HEADER)], RETURN, other, ARCHIVE,
                                                              "-Wl,--wrap=solumivaf_version"))


if __name__ == "__main__":
    unittest.main()
