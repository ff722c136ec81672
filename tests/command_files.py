#!/usr/bin/env python3
"""Compares what `configure` answers with an independent reader of the command files, on texts made at random.

Run after `rt ci`, which leaves the program in crates/samq/out/. Most texts are made of lines that are right but for one or two; `python3
tests/command_files.py COUNT SEED` makes other texts, and more of them.
"""
import os
import random
import subprocess
import sys
import tempfile

sys.dont_write_bytecode = True
from reference import reader  # noqa: E402: it stands beside this file, and leaves nothing there

TOP = os.path.dirname(os.path.dirname(os.path.abspath(__file__)))
SAMQ = os.path.join(TOP, "crates", "samq", "out", "samq")

# What stands for a field in the lines below: words that are of its form, and words that mostly are not.
FIELDS = {
    "NAME": ("samfs1 film1 b.c x-y A_1", "a/b é allsets no_archive . robot " + "n" * 32 + " " + "n" * 33),
    "LIBRARY": ("robot vault", "shelf é a/b -x no_recycle"),
    "DRIVES": ("1 2 64", "0 65 x 01 000000001 0000000001"),
    "PERCENT": ("0 70 80 100", "101 -1 x 1000000000 70 90"),
    "COUNT": ("1 2 40 00", "x 0 65536 65537 999999999 1000000000"),
    "CACHE": ("64M 4k 1G 4096", "0 4095 4097 64G 65G 1T x"),
    "CAPACITY": ("8M 512 96m 1G", "0 513 32T 33T 1023T 1024T -1"),
    "SIZE": ("0 16k 1M 2g 1t", "1b k 4kk 1023T 1024T 999999999999999 1000000000000000"),
    "AGE": ("0 4m 1h30m 1d 1h30 2w 1y", "1x h 1H 1h30x 34865y 34866y 000000000001s 0000000000001s -release"),
    "WEIGHT": ("0 1 .5 0.25 1.0 .000001", "2 01 1. . 0. 1.000001 .1234567 1.1 -1"),
    "MEDIA": ("li li l1 99", "LI l lii l- é"),
    "VSN": ("V1 V2 V3 v.1", "V/1 é " + "V" * 32 + " " + "V" * 33),
    "ORDER": ("1 2:1 1:2:3 4:3:2:1", "0 5 1:1 1: :1 01:2 1::2 1:2:3:4:1"),
    "SET": ("s1 s2 set_3 S params", "allsets no_archive 1s _s s-t s.t é wait -foo " + "s" * 29 + " " + "s" * 30),
    "PATH": (". a a/b", "/a a/ a//b .. a/.. ./a é a\u0085b a\u00a0b " + "p" * 1023 + " " + "p" * 1024),
    "N": ("1 2 3 4", "0 5 01 1x 0000000001 " + "1" * 9),
    "TARGET": ("allsets allsets.1 s1.1 s1.2 s2.1 samfs1.1", "s1.5 s1.0 s1.01 s1 s1. .1 zz.1 b.c.1 no_archive.1 params.1 s1.1.1 a/b.1 allsets.x"),
    "EXPRESSION": ("^DAY x -y", "[ -pool # ="),
    "POOL": ("daily safe", "other -pool é"),
    "WORD": ("word", "-x = # é"),
    "RELEASE": ("n a p d", "x N"),
    "STAGE": ("n a d", "p x"),
    "SORT": ("path age size none", "x PATH"),
    "JOIN": ("path none", "size x"),
    "OWNER": ("set fs user user", "dir group x"),
    "ACCESS": ("access modify", "x"),
}
# The lines of each file. A part in brackets is left out, given once or given twice.
SITE = ["fs = NAME", "cache = CACHE", "high = PERCENT", "low = PERCENT", "library = LIBRARY DRIVES", "volume = LIBRARY MEDIA VSN CAPACITY"]
STAGER = ["drives = LIBRARY COUNT", "maxactive = COUNT", "copysel = ORDER", "bufsize = WORD", "directio = WORD WORD", "logfile = WORD"]
RELEASER = ["weight_age = WEIGHT", "weight_age_access = WEIGHT", "weight_age_modify = WEIGHT", "weight_age_residence = WEIGHT",
            "weight_size = WEIGHT", "min_residence_age = AGE", "fs = NAME", "no_release", "rearch_no_release", "logfile = WORD",
            "list_size = COUNT", "display_all_candidates", "debug_partial = WORD", "fs = NAME"]
RECYCLER = ["logfile = WORD", "no_recycle MEDIA EXPRESSION [EXPRESSION]",
            "LIBRARY [-hwm PERCENT] [-mingain PERCENT] [-vsncount COUNT] [-dataquantity SIZE] [-ignore] [-mail WORD]"]
COPY = "N [-norelease] [AGE]"
ASSIGNMENT = ("SET PATH [-name WORD] [-user NAME] [-group NAME] [-minsize SIZE] [-maxsize SIZE] [-access AGE] [-release RELEASE] [-stage STAGE]")
VALUES = ["fs = NAME", "fs = NAME", "archivemeta = off", "archivemeta = WORD"] + [
    it + " = WORD" for it in "bufsize directio logfile notify timeout setarchdone examine background_interval background_time interval "
    "scanlist_squash drives wait archmax ovflmin".split()]
SECTIONS = {
    "params": ["TARGET [-archmax SIZE] [-fillvsns] [-join JOIN] [-sort SORT] [-rsort SORT] [-reserve OWNER] [-ovflmin SIZE]",
               "TARGET [-startage AGE] [-startcount COUNT] [-startsize SIZE] [-unarchage ACCESS] [-recycle_hwm PERCENT]",
               "TARGET [-recycle_mingain PERCENT] [-recycle_vsncount COUNT] [-recycle_dataquantity SIZE] [-recycle_ignore] [-lock]",
               "TARGET [-tapenonstop] [-bufsize COUNT] [-bufsize=COUNT] [-recycle_mailaddr WORD] [-drives COUNT] [-drivemin SIZE]"],
    "vsnpools": ["POOL MEDIA EXPRESSION [EXPRESSION]"],
    "vsns": ["TARGET MEDIA EXPRESSION [EXPRESSION] [-pool POOL]", "TARGET MEDIA -pool POOL [EXPRESSION]"],
}
# What a damaged line may get in place of a field, or among its fields or its characters.
FOREIGN = ["-foo", "foo", "=", "-release", "-norelease", "-pool", "wait", "params", "endparams", "endvsns", "1", "a=b"]
CHARACTERS = ["=", "#", "\\", "-", " ", "\t", "\r", "\\\n", "\\\r\n", "é", "\x07", "0"]


class Maker:
    """Makes texts from a seed."""

    def __init__(self, seed):
        self.random = random.Random(seed)

    def happens(self, chance):
        return self.random.random() < chance

    def field(self, form, is_wrong):
        for kind in sorted(FIELDS, key=len, reverse=True):
            if form == kind or form == "-bufsize=" + kind:
                right, wrong = FIELDS[kind]
                return form[: -len(kind)] + self.random.choice((wrong if is_wrong else right).split(" "))
        return form

    def line(self, form, wrong_fields=0.0):
        """Makes a line: each field is wrong with the chance given."""
        fields = []
        for part, optional in [(it.strip("[]"), it.startswith("[")) for it in self.parts(form)]:
            for _ in range(self.random.choice((0, 0, 0, 1, 1, 2)) if optional else 1):
                fields += [self.field(it, self.happens(wrong_fields)) for it in part.split(" ")]
        return fields

    def parts(self, form):
        """Cuts a form at the blanks outside brackets."""
        found, depth = [""], 0
        for character in form:
            depth += (character == "[") - (character == "]")
            if character == " " and not depth:
                found.append("")
            else:
                found[-1] += character
        return found

    def damaged(self, fields):
        """Damages a line in one place."""
        at = self.random.randrange(len(fields) + 1)
        kind = self.random.randrange(6)
        if kind == 0:
            return " ".join(fields[:at] + [self.random.choice(FOREIGN)] + fields[at + 1 :])
        if kind == 1:
            return " ".join(fields[:at] + [self.random.choice(FOREIGN)] + fields[at:])
        if kind == 2:
            return " ".join(fields[:at] + fields[at + 1 :])
        if kind == 3:
            return " ".join(fields[:at])
        if kind == 4:
            return " ".join(fields[:at] + fields[max(at - 1, 0) :])
        line = " ".join(fields)
        at = self.random.randrange(len(line) + 1)
        return line[:at] + self.random.choice(CHARACTERS) + line[at + self.random.randrange(2) :]

    def finished(self, form, is_wrong):
        """Makes a line of this form, right or, mostly, wrong, in one of its spellings."""
        if not is_wrong:
            line = " ".join(self.line(form))
        elif self.happens(0.5):
            line = " ".join(self.line(form, 0.4))
        else:
            line = self.damaged(self.line(form))
        if self.happens(0.1) and " = " in line:
            line = line.replace(" = ", self.random.choice(("=", "= ", " =", "\t=\t")))
        return line + self.random.choice(("\n",) * 12 + ("\r\n", "\n\n", " # a comment\n", "\t\n"))

    def text(self, forms, first=""):
        """Makes a text of lines of these forms, of which one or two may be wrong."""
        count = self.random.randrange(1, 9)
        wrong = [self.random.randrange(count) for _ in range(self.random.randrange(3))]
        return first + "".join(self.finished(self.random.choice(forms), at in wrong) for at in range(count))

    def archiver(self):
        """Makes a text of archiver.cmd with some sections."""
        text = "" if self.happens(0.1) else "s1 .\n" + ("s2 a\n1\n" if self.happens(0.5) else "")
        outside = [ASSIGNMENT, ASSIGNMENT, COPY, COPY, COPY, self.random.choice(VALUES)]
        for _ in range(self.random.randrange(4)):
            text += self.text(outside) if self.happens(0.6) else ""
            section = self.random.choice(("params", "vsnpools", "vsns", "vsns"))
            pools = "vsnpools\ndaily li x y\nsafe l1 x\nendvsnpools\n" if section == "vsns" and self.happens(0.5) else ""
            text += pools + self.text(SECTIONS[section], section + "\n") + (f"end{section}\n" if self.happens(0.9) else "")
        return text

    def many(self):
        """Makes texts that come near a limit on their lines, sets or expressions."""
        count = self.random.choice((0, 1, 2))
        site = "".join(f"library = l{at} 1\n" for at in range(62 + count))
        site += "".join(f"volume = l0 li V{at} 1M\n" for at in range(self.random.choice((0, 1_022 + self.random.randrange(3)))))
        site += self.finished("library = LIBRARY DRIVES", False) + self.finished("volume = LIBRARY MEDIA VSN CAPACITY", False)
        assigned, distinct = self.random.choice(((30, 30), (62, 62), (63, 63), (64, 64), (64, 59)))
        archiver = "".join(f"set{at % distinct} .\n" for at in range(assigned))
        archiver += "".join(f"fs = f{at}\n1\n" for at in range(max(0, 62 + count - assigned)))
        archiver += self.text(["SET .", "N", "fs = NAME", COPY])
        archiver += "vsnpools\np li " + "x " * 64 + "y\nendvsnpools\nvsns\n" + "set0.1 li -pool p\n" * 3 + "set0.1 li " + "x " * (58 + count) + "\n"
        archiver += self.text(["allsets li x", "allsets li x y", "allsets.1 l1 -pool p", "set0.2 li -pool p", "TARGET MEDIA x"]) + "endvsns\n"
        return [site if self.happens(0.5) else "", archiver, "", "", ""]

    def texts(self):
        """Makes the five texts."""
        if self.happens(0.05):
            return [it.encode() for it in self.many()]
        robots = "library = robot 2\nlibrary = vault 1\n"
        texts = [self.text(SITE, robots if self.happens(0.8) else "") if self.happens(0.25) else robots, "", "", "", ""]
        which = self.random.choice((1, 1, 1, 2, 3, 4))
        texts[which] = self.archiver() if which == 1 else self.text({2: STAGER, 3: RELEASER, 4: RECYCLER}[which])
        found = [it.encode() for it in texts]
        if self.happens(0.03):
            at = self.random.randrange(len(found[which]) + 1)
            odd = self.random.choice((b"\xff", b"\xc3", b"\x80", b"\xed\xa0\x80", b"\xf4\x90\x80\x80", b"\xc0\xaf", b"\\\n", b"x" * 70_000))
            found[which] = found[which][:at] + odd + found[which][at:]
        if self.happens(0.05):
            found[which] = found[which][: self.random.randrange(len(found[which]) + 1)]
        return found


def compare(count, seed):
    """Returns the number of texts that were answered otherwise than the reader says, and the answers that came, without their lines."""
    maker, differing, seen = Maker(seed), 0, set()
    with tempfile.TemporaryDirectory() as folder:
        process = subprocess.Popen([SAMQ, "run", folder], stdin=subprocess.PIPE, stdout=subprocess.PIPE)
        for _ in range(count):
            texts = maker.texts()
            for file, text in zip(reader.FILES, texts):
                with open(os.path.join(folder, file), "wb") as it:
                    it.write(text)
            process.stdin.write(b"configure\n")
            process.stdin.flush()
            answer, wanted = process.stdout.readline().decode().rstrip("\n"), reader.configure(texts)
            seen.add(answer.rpartition(": ")[2])
            if answer != wanted:
                differing += 1
                if differing <= 5:
                    print(f"FAILED answered {answer!r}, and the reader says {wanted!r} of {texts!r}"[:4_000])
        process.communicate(timeout=60)
    return differing, seen


def main(words):
    count, seed = [int(it) for it in words] + [2_000, 1][len(words) :]
    differing, seen = compare(count, seed)
    # Too few texts, or texts that no longer reach a fault, would show nothing of it.
    lacking = {"ok 0", "too large", *reader.FAULTS} - seen
    if lacking:
        print(f"FAILED no text was answered {sorted(lacking)}")
    print(f"{count - differing} passed, {differing + len(lacking)} failed")
    return differing > 0 or lacking != set()


if __name__ == "__main__":
    sys.exit(main(sys.argv[1:]))
