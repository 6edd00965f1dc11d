#!/bin/sh
# Times the built program, and the library of elements by the tables in bench/elements: bench/run.sh [OTHER]
# It prints, for each input, the median and the least of 20 runs and the peak memory. With the path of another program
# that takes the same words and input it prints the same of that one, and how many times its median and its peak this one's are.
# It needs python3, and /usr/bin/time for the memory: without it that column is a dash.
top=$(cd "$(dirname "$0")/.." && pwd) || exit 1
command -v python3 >/dev/null || {
    echo "bench/run.sh: it needs python3" >&2
    exit 1
}
"$top/risch" </dev/null 2>/dev/null # Builds the program where that is due. Without words it only says its usage.
[ $? -eq 2 ] || {
    echo "bench/run.sh: the program is not built: run $top/risch" >&2
    exit 1
}
rows=$top/crates/risch_element_rows/out/risch_element_rows

# The program that plays the tables is built, and no source is newer.
rows_are_built() {
    [ -x "$rows" ] || return 1
    newer=$(find "$top/crates.txt" "$top"/crates/*/src -newer "$rows") && [ -z "$newer" ]
}

# rt links a program only to run it, so it runs once, on its own table.
build_rows() {
    echo "bench/run.sh: building risch_element_rows, which is proved first" >&2
    rm -f "$rows"
    cd "$top/crates/risch_element_rows" && rt run <stdin >/dev/null
}

rows_are_built || (build_rows) || {
    echo "bench/run.sh: risch_element_rows was not built, or its own table has differences" >&2
    exit 1
}
exec python3 - "$top/crates/risch/out/risch" "$rows" "$top/bench/elements" "$@" <<'END'
import os
import statistics
import subprocess
import sys
import time

RUNS = 20
TIME = "/usr/bin/time"


def wide_sum():
    """200 terms with wide coefficients."""
    terms = (f"{3 ** (40 + n % 8)}*x^{n}/{2 ** (30 + n % 20)}" for n in range(200, 0, -1))
    return "integrate " + "+".join(terms) + "\n"


def filled(front, piece):
    """At most 1 MiB: the front, and the piece again and again."""
    return front + piece * ((1_048_576 - len(front)) // len(piece))


def linear(n):
    """The reciprocal of (x-1)*..*(x-n): rational residues."""
    return "integrate 1/(" + "*".join(f"(x-{k})" for k in range(1, n + 1)) + ")\n"


def irrational(n):
    """x^(n-1) over x^n - 2: irrational roots, one residue."""
    return f"integrate x^{n - 1}/(x^{n}-2)\n"


def repeated(n):
    """The reciprocal of (x*(x+1))^n: repeated factors."""
    return f"integrate 1/(x*(x+1))^{n}\n"


ROOT_SUM = "integrate 1/(x^2+1)\nintegral\npart 0\nsum z^2+1/4 of 2*z+x\nend\n"

INPUTS = [
    ("start-up (no words)", [], ""),
    ("x^254", ["integrate"], "integrate x^254\n"),
    ("a sum of 200 terms", ["integrate"], wide_sum()),
    ("1 MiB of blanks", ["integrate"], " " * 1_048_576),
    ("1 MiB of digits", ["integrate"], filled("integrate ", "9")),
    ("1 MiB of parentheses", ["integrate"], filled("integrate ", "(")),
    ("1 MiB of +x", ["integrate"], filled("integrate x", "+x")),
    ("1 MiB of comment lines", ["integrate"], filled("", "# a comment\n")),
    ("a root sum is checked", ["check"], ROOT_SUM),
    *((f"1/((x-1)..(x-{n}))", ["integrate"], linear(n)) for n in (2, 4, 6, 8)),
    *((f"x^{n - 1}/(x^{n}-2)", ["integrate"], irrational(n)) for n in (2, 4, 8, 12)),
    *((f"1/(x*(x+1))^{n}", ["integrate"], repeated(n)) for n in (2, 4, 8)),
]


def tables(folder):
    """The tables of the library of elements, with their names."""
    for name in sorted(os.listdir(folder)):
        with open(os.path.join(folder, name)) as table:
            yield name, table.read()


def run(command, text):
    """Seconds, status and what standard error says."""
    start = time.perf_counter()
    done = subprocess.run(command, input=text.encode(), stdout=subprocess.DEVNULL, stderr=subprocess.PIPE)
    return time.perf_counter() - start, done.returncode, done.stderr


def peak(command, text):
    """The peak of resident memory in KiB."""
    if not os.access(TIME, os.X_OK):
        return None
    return int(run([TIME, "-f", "%M"] + command, text)[2].split()[-1])


def measured(program, words, text):
    command = [program] + words
    runs = [run(command, text) for _ in range(RUNS)]
    seconds = [each[0] for each in runs]
    return statistics.median(seconds), min(seconds), peak(command, text), runs[0][1]


def row(name, figures, ratio=None, memory_ratio=None):
    median, least, memory, status = figures
    memory = "-" if memory is None else f"{memory:,}"
    last = "" if ratio is None else f"{ratio:>10.4f}"
    last += "" if memory_ratio is None else f"{memory_ratio:>14.4f}"
    print(f"{name:<24}{status:>7}{1000 * median:>12.2f}{1000 * least:>12.2f}{memory:>12}{last}")


def head(name, ratio="", memory_ratio=""):
    print(f"{name:<24}{'status':>7}{'median ms':>12}{'least ms':>12}{'peak KiB':>12}{ratio:>10}{memory_ratio:>14}".rstrip())


def main(program, rows, folder, *others):
    head("input", *(("ratio", "memory ratio") if others else ()))
    for name, words, text in INPUTS:
        here = measured(program, words, text)
        row(name, here)
        for other in others:
            there = measured(other, words, text)
            memory_ratio = here[2] / there[2] if here[2] and there[2] else None
            row("  " + os.path.basename(other), there, here[0] / there[0], memory_ratio)
    print()
    head("table of elements")
    for name, table in tables(folder):
        row(name, measured(rows, [], table))


main(*sys.argv[1:])
END
