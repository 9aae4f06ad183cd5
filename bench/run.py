#!/usr/bin/env python3
"""Measures the proved programs and the calls of the static library beside the second navigator's, in one run.

Usage: bench/run.py [--records N] [--rounds N] [--instructions]

All is built first (for release). In each round (7 if left out) the player, explain and depth play the same recording
(5,000,000 records if left out), the proved one and then the second's, output to /dev/null, by processor time; then calls_bench
of second/lent makes the calls on a small, a typical and a full session, the two in turns. Of all rounds the least time counts,
since noise only adds to it. Printed are nanoseconds a record or a call, and then a table of the proved ones' times as parts of
the second navigator's. With --instructions also instructions a record and a call by valgrind's callgrind, and how many calls
of memcpy and memmove a call of the library makes.
"""
import argparse
import os
import re
import subprocess
import sys
import tempfile

sys.dont_write_bytecode = True
from recording import write_recording  # noqa: E402

ROOT = os.path.dirname(os.path.dirname(os.path.abspath(__file__)))
PROVED = "crates/{}/out"
SECOND = "target/second/release"
BENCH = f"{SECOND}/calls_bench"
PROGRAMS = ["player", "explain", "depth"]
CALLS = ["start", "finishing start", "Back", "look", "save", "restore"]
SIZES = ["small", "typical", "full"]
COUNTED_RECORDS = 100_000
COUNTED_CALLS = 640
LINE = re.compile(r"(.{15}) (\S+) +([\d.]+) +\(\d+\) +([\d.]+) +\(\d+\)")


def build():
    """The proved programs and the library, and the second navigator's."""
    quiet = dict(check=True, stdout=subprocess.DEVNULL, stderr=subprocess.DEVNULL)
    for name in PROGRAMS:
        subprocess.run(["rt", "run"], cwd=f"crates/{name}", stdin=subprocess.DEVNULL, **quiet)
    subprocess.run(["rt", "lib"], cwd="crates/lent", **quiet)
    env = dict(os.environ, CARGO_TARGET_DIR=os.path.join(ROOT, "target/second"), LENT=os.path.join(ROOT, "crates/lent/out"))
    for manifest in ("second/Cargo.toml", "second/lent/Cargo.toml"):
        subprocess.run(["cargo", "build", "--release", "--offline", "--quiet", "--manifest-path", manifest], check=True, env=env)


def played(program, path):
    """Seconds of processor time that a program takes for a recording."""
    with open(path, "rb") as stdin:
        child = subprocess.Popen([program], stdin=stdin, stdout=subprocess.DEVNULL, stderr=subprocess.DEVNULL)
        _, child.returncode, used = os.wait4(child.pid, 0)
    if child.returncode:
        sys.exit(f"{program} failed")
    return used.ru_utime + used.ru_stime


def rounds(path, records, count):
    """Of each program, and of each call and size, the least nanoseconds of the proved one and of the second's."""
    least = {}

    def keep(what, who, nanoseconds):
        times = least.setdefault(what, [float("inf"), float("inf")])
        times[who] = min(times[who], nanoseconds)

    for number in range(count):
        print(f"round {number + 1} of {count}", file=sys.stderr)
        for name in PROGRAMS:
            for who, folder in enumerate((PROVED.format(name), SECOND)):
                keep((name, ""), who, played(f"{folder}/{name}", path) / records * 1e9)
        told = subprocess.run([BENCH], check=True, stdout=subprocess.PIPE, text=True).stdout
        for row in filter(None, map(LINE.match, told.splitlines())):
            for who in (0, 1):
                keep((row[1].strip(), row[2]), who, float(row[3 + who]))
    return least


def print_times(least):
    print("nanoseconds a record or a call    proved   second")
    for (name, size), (proved, second) in least.items():
        print(f"{name:<16} {size:<14} {proved:>8.1f} {second:>8.1f}")
    print()
    print("| | small | typical | full |")
    print("|---|---|---|---|")
    for name in CALLS:
        ratios = [least[name, size][0] / least[name, size][1] for size in SIZES]
        print(f"| {name} | " + " | ".join(f"{ratio:.2f}" for ratio in ratios) + " |")
    for name in PROGRAMS:
        proved, second = least[name, ""]
        print(f"| `{name}`, a recording | {proved / second:.2f} | | |")


def collected(arguments, out, **rest):
    """The instructions that callgrind counts of a command."""
    told = subprocess.run(["valgrind", "--tool=callgrind", f"--callgrind-out-file={out}", *arguments],
                          stdout=subprocess.DEVNULL, stderr=subprocess.PIPE, check=True, text=True, **rest)
    return int(re.search(r"Collected : (\d+)", told.stderr)[1])


def counted_records(program, path):
    with open(path, "rb") as stdin:
        return collected([program], os.devnull, stdin=stdin) / COUNTED_RECORDS


def counted_calls(who, call, size):
    """Instructions a call, inside of the measured function alone, and calls of memcpy and memmove in it."""
    with tempfile.NamedTemporaryFile() as out:
        made = collected(["--compress-strings=no", f"--toggle-collect=*measured_{who}*",
                          BENCH, "--once", who, call, size, str(COUNTED_CALLS)], out.name)
        copies = re.findall(r"^cfn=.*mem(?:cpy|move).*\ncalls=(\d+)", open(out.name).read(), re.M)
    return made / COUNTED_CALLS, sum(map(int, copies)) / COUNTED_CALLS


def print_instructions():
    print()
    print("instructions a record or a call   proved   second  ratio  memcpy")
    with tempfile.NamedTemporaryFile() as file:
        write_recording(file, COUNTED_RECORDS)
        for name in PROGRAMS:
            proved, second = (counted_records(f"{folder}/{name}", file.name) for folder in (PROVED.format(name), SECOND))
            print(f"{name:<31} {proved:>8.0f} {second:>8.0f} {proved / second:>6.2f}", flush=True)
    for call in CALLS:
        for size in SIZES:
            (proved, copies), (second, _) = (counted_calls(who, call, size) for who in ("lent", "second"))
            print(f"{call:<16} {size:<14} {proved:>8.0f} {second:>8.0f} {proved / second:>6.2f} {copies:>7.1f}", flush=True)


def main():
    parser = argparse.ArgumentParser(usage="bench/run.py [--records N] [--rounds N] [--instructions]")
    parser.add_argument("--records", type=int, default=5_000_000)
    parser.add_argument("--rounds", type=int, default=7)
    parser.add_argument("--instructions", action="store_true")
    asked = parser.parse_args()
    if asked.records < 1 or asked.rounds < 1:
        parser.error("there is at least one record and one round")
    os.chdir(ROOT)
    build()
    with tempfile.NamedTemporaryFile() as file:
        write_recording(file, asked.records)
        print_times(rounds(file.name, asked.records, asked.rounds))
    if asked.instructions:
        print_instructions()


main()
