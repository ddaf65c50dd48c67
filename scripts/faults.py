"""Hostile runs of the program: refused memory, failing devices, cut texts and random ones. Each must end as the README says."""
import argparse
import os
import random
import re
import resource
import subprocess
import sys
import tempfile
import time

HERE = os.path.dirname(os.path.dirname(os.path.realpath(__file__)))

# What stands between the program and the C library: it counts the growths of memory, the reads and the writes, and lets the
# read or the write with a number fail, and from the growth with a number on each: a list that is refused twice its room asks
# for what it needs. A growth is a call of malloc or realloc.
SHIM = r"""
#define _GNU_SOURCE
#include <dlfcn.h>
#include <errno.h>
#include <fcntl.h>
#include <stdatomic.h>
#include <stdio.h>
#include <stdlib.h>
#include <string.h>
#include <unistd.h>

static atomic_long growths, reads, writes;
static long growth_fails, read_fails, write_fails, piece;
static char report[4096];
static void *(*next_malloc)(size_t);
static void *(*next_realloc)(void *, size_t);
static ssize_t (*next_read)(int, void *, size_t);
static ssize_t (*next_write)(int, const void *, size_t);

static long asked(const char *name) {
    const char *text = getenv(name);
    return text ? atol(text) : 0;
}

__attribute__((constructor)) static void begin(void) {
    next_malloc = dlsym(RTLD_NEXT, "malloc");
    next_realloc = dlsym(RTLD_NEXT, "realloc");
    next_read = dlsym(RTLD_NEXT, "read");
    next_write = dlsym(RTLD_NEXT, "write");
    growth_fails = asked("FAULTS_GROWTH");
    read_fails = asked("FAULTS_READ");
    write_fails = asked("FAULTS_WRITE");
    piece = asked("FAULTS_PIECE");
    if (getenv("FAULTS_REPORT")) strncpy(report, getenv("FAULTS_REPORT"), sizeof report - 1);
    atomic_store(&growths, 0);
}

static void tell(void) {
    char text[128];
    int file;
    if (!report[0]) return;
    file = open(report, O_WRONLY | O_CREAT | O_TRUNC, 0600);
    if (file < 0) return;
    snprintf(text, sizeof text, "%ld %ld %ld\n", atomic_load(&growths), atomic_load(&reads), atomic_load(&writes));
    next_write(file, text, strlen(text));
    close(file);
}

void _exit(int status) {
    void (*next)(int) = (void (*)(int))dlsym(RTLD_NEXT, "_exit");
    tell();
    next(status);
    for (;;) {
    }
}

__attribute__((destructor)) static void end(void) { tell(); }

static int is_refused(void) {
    long number = atomic_fetch_add(&growths, 1) + 1;
    if (!growth_fails || number < growth_fails) return 0;
    errno = ENOMEM;
    return 1;
}

void *malloc(size_t size) {
    if (!next_malloc) next_malloc = dlsym(RTLD_NEXT, "malloc");
    return is_refused() ? NULL : next_malloc(size);
}

void *realloc(void *old, size_t size) {
    if (!next_realloc) next_realloc = dlsym(RTLD_NEXT, "realloc");
    return is_refused() ? NULL : next_realloc(old, size);
}

ssize_t read(int file, void *to, size_t size) {
    if (!next_read) next_read = dlsym(RTLD_NEXT, "read");
    if (atomic_fetch_add(&reads, 1) + 1 == read_fails) {
        errno = EIO;
        return -1;
    }
    return next_read(file, to, piece && size > (size_t)piece ? (size_t)piece : size);
}

ssize_t write(int file, const void *from, size_t size) {
    if (!next_write) next_write = dlsym(RTLD_NEXT, "write");
    if (atomic_fetch_add(&writes, 1) + 1 == write_fails) {
        errno = ENOSPC;
        return -1;
    }
    return next_write(file, from, piece && size > (size_t)piece ? (size_t)piece : size);
}
"""

INVALID = rb"status: MODEL_INVALID\n# (text fault at byte \d+|field fault [A-Za-z]+ at byte \d+|invalid V\d+ at [a-z]+( \d+)?|input longer than 67108864 bytes)\n"
ANSWER = rb"status: (OPTIMAL|FEASIBLE|INFEASIBLE|UNKNOWN)\n(solution: -?\d+\n|objective_value: -?\d+\n|best_objective_bound: -?\d+\n|sufficient_assumptions_for_infeasibility: -?\d+\n)*(%log\n([seotal]( \S+)*\n)*%end\n)?"
USAGE = b"usage: cpsolve solve|validate|print|gen|demo|check\n"

BOOLEAN = "variables { domain: [0, 1] }\n"
INTERVAL = "constraints { interval { start { vars: 0 coeffs: 1 } size { offset: 2 } end { vars: 0 coeffs: 1 offset: 2 } } }\n"


def variable(low, high):
    return "variables { domain: [%d, %d] }\n" % (low, high)


def constraint(text):
    return "constraints { %s }\n" % text


def expression(reference):
    return "{ vars: [%d] coeffs: [1] }" % reference


# A model of each kind, and one that needs conflicts to be closed.
MODELS = {
    "empty": "",
    "linear": variable(0, 10) * 2 + constraint("linear { vars: [0, 1] coeffs: [1, 3] domain: [-9223372036854775808, 6] }")
    + "objective { vars: [0, 1] coeffs: [-3, -2] scaling_factor: -1 }\n",
    "different": variable(0, 2) * 3
    + "".join(constraint("linear { vars: [%d, %d] coeffs: [1, -1] domain: [-2, -1, 1, 2] }" % pair) for pair in ((0, 1), (0, 2), (1, 2)))
    + "objective { vars: [0, 1, 2] coeffs: [1, 1, 1] }\n",
    "bools": BOOLEAN * 3
    + constraint("bool_or { literals: [0, 1] }")
    + constraint("bool_and { literals: [-3] } enforcement_literal: 0")
    + constraint("at_most_one { literals: [0, 1, 2] }")
    + constraint("exactly_one { literals: [0, 2, -2] }")
    + constraint("bool_xor { literals: [0, 1, 2] }"),
    "division": variable(-9, 9) * 3
    + constraint("int_div { target %s exprs %s exprs { offset: 3 } }" % (expression(0), expression(1)))
    + constraint("int_mod { target %s exprs %s exprs { offset: 4 } }" % (expression(2), expression(1))),
    "product": variable(-9, 9) * 3
    + constraint("int_prod { target %s exprs %s exprs %s }" % tuple(map(expression, (0, 1, 2))))
    + constraint("lin_max { target %s exprs %s exprs %s }" % tuple(map(expression, (0, 1, 2)))),
    "element": variable(0, 3) * 2 + constraint("element { linear_index %s linear_target %s exprs { offset: 3 } exprs { offset: 1 } }" % tuple(map(expression, (0, 1)))),
    "table": variable(0, 3) * 2 + constraint("table { exprs %s exprs %s values: [1, 2, 3, 0] }" % tuple(map(expression, (0, 1)))),
    "alldiff": variable(0, 3) * 4 + constraint("all_diff { %s }" % " ".join("exprs " + expression(i) for i in range(4))),
    "circuit": BOOLEAN * 6 + constraint("circuit { tails: [0, 0, 1, 1, 2, 2] heads: [1, 2, 0, 2, 0, 1] literals: [0, 1, 2, 3, 4, 5] }"),
    "no_overlap": variable(0, 3) + INTERVAL + INTERVAL.replace("vars: 0", "vars: 1") + variable(0, 3) + constraint("no_overlap { intervals: [0, 1] }"),
    "no_overlap_2d": variable(0, 3) * 2 + INTERVAL + INTERVAL.replace("vars: 0", "vars: 1") + constraint("no_overlap_2d { x_intervals: [0, 1] y_intervals: [0, 0] }"),
    "cumulative": variable(0, 3) * 2 + INTERVAL + INTERVAL.replace("vars: 0", "vars: 1")
    + constraint("cumulative { capacity { offset: 2 } intervals: [0, 1] demands { offset: 2 } demands { offset: 1 } }"),
    "reservoir": variable(0, 3) + constraint("reservoir { max_level: 1 time_exprs { } time_exprs %s level_changes { offset: 1 } level_changes { offset: -1 } }" % expression(0)),
    "inverse": variable(0, 2) * 6 + constraint("inverse { f_direct: [0, 1, 2] f_inverse: [3, 4, 5] }"),
    "automaton": variable(0, 9) * 3
    + constraint("automaton { final_states: 1 transition_tail: [0, 1] transition_head: [1, 0] transition_label: [5, 6] %s }" % " ".join("exprs " + expression(i) for i in range(3))),
    "ten": variable(0, 10) + constraint("linear { vars: [0] coeffs: [10] domain: [-5, 10] }"),
    "ten, freely spelled": "variables: < domain: 0; domain: 0x0A, > # ten\nconstraints [{ linear: { vars: 0 coeffs: 012 domain: [- 5, 10], } }]",
    "steered": variable(0, 9) + "search_strategy { variables: 0 domain_reduction_strategy: SELECT_MAX_VALUE }\nsolution_hint { vars: 0 values: 4 }\n" + 'name: "steered \\303\\274"\n',
}

COMMANDS = {
    "solve alone": ["solve", "--workers", "1"],
    "solve in turns": ["solve", "--interleave"],
    "solve with a log": ["solve", "--workers", "1", "--log"],
    "print": ["print"],
    "validate": ["validate"],
}

# Runs of which each growth is refused, however many there are.
WHOLE = {("solve in turns", "different"), ("solve with a log", "different"), ("print", "ten"), ("print", "ten, freely spelled")}


class Runs:
    """Counts runs, and what ended otherwise than it may."""

    def __init__(self, program, shim, seconds, megabytes):
        self.program, self.shim, self.seconds, self.megabytes = program, shim, seconds, megabytes
        self.counts, self.wrong = {}, []

    def limits(self):
        most = self.megabytes << 20
        resource.setrlimit(resource.RLIMIT_AS, (most, most))

    def run(self, words, text, faults=None, report=None):
        world = {**os.environ, **{name: str(value) for name, value in (faults or {}).items()}}
        if faults is not None:
            world["LD_PRELOAD"] = self.shim
        if report:
            world["FAULTS_REPORT"] = report
        try:
            done = subprocess.run([self.program, *words], input=text, capture_output=True, timeout=self.seconds, env=world, preexec_fn=self.limits)
        except subprocess.TimeoutExpired:
            return None
        return done.returncode, done.stdout, done.stderr

    def note(self, what, is_right, told):
        self.counts[what] = self.counts.get(what, 0) + 1
        if not is_right:
            self.wrong.append("%s: %s" % (what, told))

    def counted(self, words, text):
        """The answer with ample memory, and how many growths, reads and writes the run makes."""
        with tempfile.NamedTemporaryFile() as report:
            answer = self.run(words, text, {}, report.name)
            told = report.read().split()
        return answer, [int(number) for number in told] if len(told) == 3 else [0, 0, 0]


def is_answer(words, ran):
    """Whether a run ended in one of the stated ways, with its text."""
    if ran is None or ran[2]:
        return False
    status, text, _ = ran
    if status in (3, 5):
        return not text
    if status == 1:
        return re.fullmatch(INVALID, text) is not None
    if status == 2:
        return text == USAGE
    if status != 0:
        return False
    return {"solve": lambda: re.fullmatch(ANSWER, text) is not None, "validate": lambda: text == b"valid\n"}.get(words[0], lambda: True)()


def show(ran):
    return "no end in time" if ran is None else "exit %d, %d bytes %r, error %r" % (ran[0], len(ran[1]), ran[1][:80], ran[2][:80])


def refuse_memory(runs, most):
    """Each growth is refused in turn, with those after it: exit 5 and nothing written."""
    for name, text in MODELS.items():
        for what, words in COMMANDS.items():
            _, counts = runs.counted(words, text.encode())
            tried = counts[0] if (what, name) in WHOLE else min(counts[0], most)
            for number in range(1, tried + 1):
                ran = runs.run(words, text.encode(), {"FAULTS_GROWTH": number})
                is_right = ran == (5, b"", b"")
                runs.note("memory refused", is_right, "%s of %s, growth %d of %d: %s" % (what, name, number, counts[0], show(ran)))


def fail_devices(runs):
    """Each read and each write fails in turn, with pieces of one byte and of any length."""
    for name, text in MODELS.items():
        data = text.encode()
        for what, words in COMMANDS.items():
            for piece in (0, 1):
                faults = {"FAULTS_PIECE": piece}
                answer, _ = runs.counted(words, data)
                with tempfile.NamedTemporaryFile() as report:
                    runs.run(words, data, faults, report.name)
                    _, reads, writes = [int(number) for number in report.read().split()]
                for number in range(1, min(reads, 200) + 1):
                    ran = runs.run(words, data, {**faults, "FAULTS_READ": number})
                    runs.note("read failed", ran is not None and ran == (3, b"", b""), "%s of %s, read %d: %s" % (what, name, number, show(ran)))
                for number in range(1, min(writes, 200) + 1):
                    ran = runs.run(words, data, {**faults, "FAULTS_WRITE": number})
                    is_right = ran is not None and ran[0] == 4 and not ran[2] and answer[1].startswith(ran[1]) and len(ran[1]) < len(answer[1])
                    runs.note("write failed", is_right, "%s of %s, write %d: %s" % (what, name, number, show(ran)))


def cut_texts(runs):
    """Each prefix of each text."""
    for name, text in MODELS.items():
        data = text.encode()
        for length in range(len(data) + 1):
            for words in (["validate"], ["solve", "--workers", "1", "--conflicts", "100"]):
                ran = runs.run(words, data[:length])
                is_right = is_answer(words, ran) and ran[0] in (0, 1)
                runs.note("prefix", is_right, "%s of %s, %d bytes: %s" % (words[0], name, length, show(ran)))


def edited(draws, data):
    """A text with a few bytes or words changed."""
    made = bytearray(data)
    for _ in range(draws.randint(1, 4)):
        place = draws.randrange(len(made) + 1)
        kind = draws.randrange(5)
        if kind == 0 and made:
            del made[place : place + draws.randint(1, 8)]
        elif kind == 1:
            made[place:place] = bytes(draws.randrange(256) for _ in range(draws.randint(1, 4)))
        elif kind == 2:
            made[place:place] = draws.choice([b"-", b"[", b"]", b"{", b"}", b":", b"9223372036854775807", b"-1", b"4611686018427387904", b"0x", b"1e9", b'"', b"#"])
        elif kind == 3 and made:
            made[place : place + 1] = made[: draws.randint(0, 20)]
        elif made:
            made[min(place, len(made) - 1)] ^= 1 << draws.randrange(8)
    return bytes(made)


def random_texts(runs, count, seed):
    """Random bytes, and random edits of valid texts, to each command."""
    draws = random.Random(seed)
    texts = [text.encode() for text in MODELS.values()]
    for number in range(count):
        data = edited(draws, draws.choice(texts)) if number % 4 else bytes(draws.randrange(256) for _ in range(draws.randint(0, 200)))
        words = draws.choice([["validate"], ["print"], ["solve", "--workers", "1", "--conflicts", "200"], ["solve", "--workers", "1", "--conflicts", "50", "--log"], ["solve", "--interleave", "--conflicts", "50"], ["solve", "--conflicts", "50"]])
        ran = runs.run(words, data)
        runs.note("random text", is_answer(words, ran), "%s of text %d: %s" % (words[0], number, show(ran)))


def slow_texts():
    """Texts that are made to be slow, with what they are."""
    yield "deep nesting", b"a{" * 2_000_000
    yield "a list of 2^24 entries", b"variables { domain: [" + b"0," * (2**24 - 1) + b"0] }"
    yield "2^20 constraints of one literal", b"variables { domain: [0, 1] } " + b"constraints{bool_or{literals:0}}" * 2**20
    yield "a table of 10^6 values", b"variables { domain: [0, 9] } constraints { table { vars: 0 values: [" + b",".join(b"%d" % (k % 10) for k in range(10**6)) + b"] } }"
    arcs = 10**5
    numbers = b",".join(b"%d" % k for k in range(arcs))
    yield "an automaton of 10^5 transitions", (
        b"variables { domain: [0, 99999] } constraints { automaton { final_states: 1 transition_tail: [" + numbers + b"] transition_head: [" + numbers + b"] transition_label: [" + numbers + b"] vars: 0 } }"
    )
    yield "a strategy over 4 million references", b"variables { domain: [0, 1] } search_strategy { variables: [" + b"0," * (4_000_000 - 1) + b"0] }"
    yield "a domain of 10^5 intervals", b"variables { domain: [" + b",".join(b"%d" % (k // 2 * 4 + k % 2) for k in range(2 * 10**5)) + b"] }"


def slow_runs(runs, program):
    """How long `validate` takes for each, and the most memory that it has, over the size of the text."""
    for what, text in slow_texts():
        with tempfile.TemporaryFile() as source, tempfile.TemporaryFile() as out, tempfile.TemporaryFile() as error:
            source.write(text)
            source.seek(0)
            begun = time.monotonic()
            limit = lambda: resource.setrlimit(resource.RLIMIT_CPU, (300, 300))
            process = subprocess.Popen([program, "validate"], stdin=source, stdout=out, stderr=error, preexec_fn=limit)
            # (the use of this child alone, and not the most of all)
            _, status, usage = os.wait4(process.pid, 0)
            process.returncode = os.waitstatus_to_exitcode(status)
            taken = time.monotonic() - begun
            out.seek(0)
            error.seek(0)
            ran = (process.returncode, out.read(), error.read())
        runs.note("slow text", is_answer(["validate"], ran), "%s: %s" % (what, show(ran)))
        used = usage.ru_maxrss * 1024
        print("faults: %s: %.1f MB of text, %.2f s, %s, %.1f MB (%.1f times the text)" % (
            what, len(text) / 1e6, taken, ran[1].split(b"\n")[-2].decode(), used / 1e6, used / len(text)))


def main():
    words = argparse.ArgumentParser(description=__doc__)
    words.add_argument("program")
    words.add_argument("--random", type=int, default=3000, metavar="COUNT", help="random texts")
    words.add_argument("--growths", type=int, default=400, metavar="COUNT", help="growths that are refused of each other run, at most")
    words.add_argument("--seed", type=int, default=1)
    words.add_argument("--seconds", type=float, default=60, help="limit of a run")
    words.add_argument("--megabytes", type=int, default=4096, help="limit of a run")
    words.add_argument("--without", default="", metavar="PARTS", help="leave out memory, devices, prefixes, random, slow")
    given = words.parse_args()
    left_out = given.without.split(",")
    with tempfile.TemporaryDirectory() as room:
        shim = os.path.join(room, "shim.so")
        subprocess.run(["cc", "-shared", "-fPIC", "-O1", "-x", "c", "-", "-o", shim, "-ldl"], input=SHIM.encode(), check=True)
        runs = Runs(given.program, shim, given.seconds, given.megabytes)
        parts = {
            "memory": lambda: refuse_memory(runs, given.growths),
            "devices": lambda: fail_devices(runs),
            "prefixes": lambda: cut_texts(runs),
            "random": lambda: random_texts(runs, given.random, given.seed),
            "slow": lambda: slow_runs(runs, given.program),
        }
        for name, part in parts.items():
            if name not in left_out:
                part()
    for told in runs.wrong[:40]:
        print("faults: " + told, file=sys.stderr)
    print("faults: %d runs (%s), %d wrong" % (sum(runs.counts.values()), ", ".join("%s %d" % it for it in runs.counts.items()), len(runs.wrong)))
    return 1 if runs.wrong else 0


if __name__ == "__main__":
    sys.exit(main())
