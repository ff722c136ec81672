#!/usr/bin/env python3
"""Compares `samq run` over puts of small files with a small C program that makes the same writes and syncs in the same order.

Both run on a disk folder and on a memory file system, by turns, in one run of this script; it prints the ratio of the medians
for each folder, and the most memory that samq took. It needs the built program (crates/samq/out/samq), python3 and a C compiler.
Usage: bench/puts.py [PUTS [BYTES [ROUNDS]]]
"""
import os
import shutil
import statistics
import subprocess
import sys
import tempfile
import time

HERE = os.path.dirname(os.path.abspath(__file__))
SAMQ = os.path.join(os.path.dirname(HERE), "crates", "samq", "out", "samq")


def compiled(into):
    program = os.path.join(into, "puts")
    subprocess.run([os.environ.get("CC", "cc"), "-O2", "-o", program, os.path.join(HERE, "puts.c")], check=True)
    return program


def timed(words, given, wanted):
    """The seconds that a program took over an input, and the most memory, in KiB."""
    with tempfile.TemporaryFile() as source, tempfile.TemporaryFile() as sink:
        source.write(given)
        source.seek(0)
        begun = time.monotonic()
        process = subprocess.Popen(words, stdin=source, stdout=sink)
        _, status, usage = os.wait4(process.pid, 0)
        took = time.monotonic() - begun
        process.returncode = os.waitstatus_to_exitcode(status)
        sink.seek(0)
        written = sink.read()
    if process.returncode != 0 or written != wanted:
        raise SystemExit(f"{words[0]}: status {process.returncode}, and wrote {written[:200]!r}")
    return took, usage.ru_maxrss


def journals_alike(one, other):
    with open(one, "rb") as first, open(other, "rb") as second:
        return first.read() == second.read()


def compare(baseline, where, puts, length, rounds):
    """The median seconds of both over one folder, each round in folders of its own, and the most memory of ours in KiB."""
    lines = b"".join(b"put /f%d u g %s\n" % (i, b"x" * length) for i in range(1, puts + 1))
    wanted = b"".join(b"ok %d\n" % i for i in range(1, puts + 1))
    ours, theirs, memory = [], [], 0
    for _ in range(rounds):
        with tempfile.TemporaryDirectory(dir=where) as top:
            plain, site = os.path.join(top, "plain"), os.path.join(top, "site")
            os.mkdir(plain)
            theirs.append(timed([baseline, plain, str(puts), str(length)], b"", wanted)[0])
            took, most = timed([SAMQ, "run", site], lines, wanted)
            ours.append(took)
            memory = max(memory, most)
            if not journals_alike(os.path.join(plain, "0"), os.path.join(site, "bank", "0")):
                raise SystemExit("the two journals differ")
    return statistics.median(ours), statistics.median(theirs), memory


def main():
    puts, length, rounds = (int(word) for word in (sys.argv[1:] + ["1000", "100", "3"][len(sys.argv) - 1:])[:3])
    if not os.path.exists(SAMQ) or shutil.which(os.environ.get("CC", "cc")) is None:
        print("skipped: it needs crates/samq/out/samq and a C compiler")
        return 0
    with tempfile.TemporaryDirectory() as top:
        baseline = compiled(top)
        for name, where in (("disk", os.environ.get("BENCH_DISK", HERE)), ("memory", "/dev/shm")):
            if not os.path.isdir(where):
                print(f"{name}: skipped, there is no {where}")
                continue
            ours, theirs, memory = compare(baseline, where, puts, length, rounds)
            print(f"{name}: {puts} puts of {length} bytes: samq {ours:.3f} s, plain C {theirs:.3f} s, ratio {ours / theirs:.2f}, "
                  f"samq's memory at its peak {memory / 1024:.1f} MiB")
    return 0


if __name__ == "__main__":
    sys.exit(main())
