#!/usr/bin/env python3
"""Compares what the program answers with an independent machine, on scripts made at random, each cut into several runs.

Run after `rt ci`, which leaves the program in crates/samq/out/. `python3 tests/lines.py COUNT SEED` makes other scripts, and more of them.
"""
import os
import random
import subprocess
import sys
import tempfile

sys.dont_write_bytecode = True
from reference import machine, reader  # noqa: E402: they stand beside this file, and leave nothing there

TOP = os.path.dirname(os.path.dirname(os.path.abspath(__file__)))
SAMQ = os.path.join(TOP, "crates", "samq", "out", "samq")

# Words of each form: first those that are right, then those that mostly are not.
PATHS = ([b"/a", b"/b", b"/c/d", b"/a/b"],
         [b"a", b"/", b"//a", b"/a/", b"/.", b"/a/..", b"/.a", b"/\xc3\xa9", b"/\xff", b"/a\x07", b"/\xc2\x85", b"/\xc2\xa0", b"/x=y",
          b"/" + b"p" * 1_023, b"/" + b"p" * 1_024])
NAMES = ([b"u", b"g", b"a.b", b"x-y_Z9"], [b"n" * 32, b"n" * 33, b"a/b", b"\xc3\xa9"])
NUMBERS = ([b"0", b"1", b"5", b"4096", b"00000000000000000007"],
           [b"16777216", b"16777217", b"1099511627775", b"1099511627776", b"000000000000000000007", b"18446744073709551616", b"x", b"-1", b"1x"])
SIZES = ([b"0", b"1", b"4096", b"4097", b"1k", b"300K"], [b"16M", b"16777217", b"1G", b"1023T", b"1024T", b"1b", b"9999999999999999"])
SEEDS = ([b"0", b"254", b"999999999"], [b"1000000000", b"x"])
CONTENTS = ([b"hi", b"two  words ", b"", b" x", b"\xff\x00\x01", b"y" * 3_000], [b"y" * 4_070, b"y" * 4_096])
OTHERS = [b"frob", b"mv /a /b", b"PUT", b"# a comment", b" # no comment", b"", b"   ", b"\t", b"put", b"head", b"make", b"#" + b"x" * 4_096, b"\xff"]
# Command files for `configure`: small caches, the default one, and texts that are refused.
SITES = ([b"cache = 16k\n"] * 2 + [b"cache = 1M\nlibrary = robot 2\nvolume = robot li V1 8M\n", b"", b"cache = 3k\n", b"cache\n", b"# " + b"x" * 65_536])


def any_word(chooser, words):
    right, wrong = words
    return chooser.choice(right if chooser.random() < 0.85 else wrong)


def line(chooser):
    """Makes a line, mostly a right one."""
    forms = [(b"put", PATHS, NAMES, NAMES, CONTENTS)] * 3 + [(b"make", PATHS, NAMES, NAMES, SIZES, SEEDS)] * 2 + [(b"cat", PATHS)] * 2
    forms += [(b"head", PATHS, NUMBERS), (b"rm", PATHS), (b"rm", PATHS), (b"at", NUMBERS), (b"configure",)]
    name, *rest = chooser.choice(forms)
    words = [name, *[any_word(chooser, it) for it in rest]]
    if chooser.random() < 0.05:
        words = [chooser.choice(OTHERS)]
    if chooser.random() < 0.05:
        words = words[: chooser.randrange(len(words) + 1)]
    if chooser.random() < 0.05:
        words.insert(chooser.randrange(len(words) + 1), chooser.choice((b"x", b"/a", b"7")))
    made = chooser.choice([b" "] * 12 + [b"  ", b"\t"]).join(words)
    return chooser.choice([b""] * 12 + [b" "]) + made + chooser.choice([b"\n"] * 10 + [b"\r\n", b" \n", b"\r\r\n"])


def script(chooser):
    made = b"configure\n" + b"".join(line(chooser) for _ in range(chooser.randrange(60)))
    return made if chooser.random() < 0.8 else made[: chooser.randrange(len(made))]


def compare(chooser):
    """Makes a site and some runs over it, and says where the program answers otherwise than the machine, if it does."""
    texts = [chooser.choice(SITES), b"", b"", b"", b""]
    site = machine.Machine(texts)
    with tempfile.TemporaryDirectory() as folder:
        for file, text in zip(reader.FILES, texts):
            with open(os.path.join(folder, file), "wb") as it:
                it.write(text)
        for _ in range(3):
            given = script(chooser)
            done = subprocess.run([SAMQ, "run", folder], input=given, stdout=subprocess.PIPE, timeout=60)
            wanted = site.run(given)
            if (done.returncode, done.stdout) != (0, wanted):
                return f"{given!r} over {texts[0][:80]!r} gave status {done.returncode}, {done.stdout!r}; the machine answers {wanted!r}"
    return None


def main(words):
    count, seed = [int(it) for it in words] + [100, 1][len(words) :]
    chooser = random.Random(seed)
    failed = [it for it in (compare(chooser) for _ in range(count)) if it]
    for it in failed[:3]:
        print(f"FAILED {it}"[:6_000])
    print(f"{count - len(failed)} passed, {len(failed)} failed")
    return failed != []


if __name__ == "__main__":
    sys.exit(main(sys.argv[1:]))
