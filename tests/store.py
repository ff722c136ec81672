#!/usr/bin/env python3
"""Drives the built program on real folders, and compares what it leaves on disk with the format.

Run after `rt ci`, which leaves the program in crates/samq/out/; SAMQ in the environment names another one. The expected bytes
are written out by hand.
"""
import os
import random
import resource
import shutil
import signal
import subprocess
import sys
import tempfile
import time

TOP = os.path.dirname(os.path.dirname(os.path.abspath(__file__)))
SAMQ = os.environ.get("SAMQ") or os.path.join(TOP, "crates", "samq", "out", "samq")

passed = 0
failed = 0


def check(name, got, wanted):
    global passed, failed
    if got == wanted:
        passed += 1
    else:
        failed += 1
        print(f"FAILED {name}: got {got!r}, wanted {wanted!r}")


def run(words, text):
    done = subprocess.run([SAMQ, *words], input=text, stdout=subprocess.PIPE, stderr=subprocess.PIPE, timeout=60)
    return done.returncode, done.stdout, done.stderr


def number(value):
    return value.to_bytes(8, "little")


def text(value):
    return len(value).to_bytes(4, "little") + value


def put_record(inode, path, owner, group, length, runs, moment=0):
    payload = b"\x02" + number(moment) + number(inode) + text(path) + text(owner) + text(group) + number(length)
    payload += len(runs).to_bytes(4, "little")
    for first, count in runs:
        payload += first.to_bytes(4, "little") + count.to_bytes(4, "little")
    return b"\x01" + len(payload).to_bytes(4, "little") + payload


def area(folder, number_of_area):
    with open(os.path.join(folder, "bank", str(number_of_area)), "rb") as file:
        return file.read()


def accessed_record(inode, moment=0):
    payload = b"\x03" + number(moment) + number(inode)
    return b"\x01" + len(payload).to_bytes(4, "little") + payload


def removed_record(inode, moment=0):
    payload = b"\x04" + number(moment) + number(inode)
    return b"\x01" + len(payload).to_bytes(4, "little") + payload


def first_put():
    with tempfile.TemporaryDirectory() as top:
        folder = os.path.join(top, "site")
        check("first put", run(["run", folder], b"put /a u g hi\n"), (0, b"ok 1\n", b""))
        journal = put_record(1, b"/a", b"u", b"g", 2, [(0, 1)])
        check("journal on disk", area(folder, 0), journal + b"\x00")
        check("cache on disk", area(folder, 1), b"hi")
        check("a second process", run(["run", folder], b"put /b u g yo\ncat /a\n"), (0, b"ok 2\nbytes 2\nhi\n", b""))
        journal += put_record(2, b"/b", b"u", b"g", 2, [(1, 1)]) + accessed_record(1)
        check("its journal", area(folder, 0), journal + b"\x00")


def replaced_and_removed():
    with tempfile.TemporaryDirectory() as folder:
        lines = b"at 100\nput /a u g one\nput /a v h other\nput /b u g two\nat 50\ncat /a\nhead /b 2\nrm /a\nrm /a\ncat /a\nput /c u g \n"
        answers = b"at 100\nok 1\nok 1\nok 2\nat 100\nbytes 5\nother\nbytes 2\ntw\nok 1\nrefused: no file\nrefused: no file\nok 3\n"
        check("replaced and removed", run(["run", folder], lines), (0, answers, b""))
        # The old block of a replaced file is free again behind its record, and the lowest one is taken first.
        records = put_record(1, b"/a", b"u", b"g", 3, [(0, 1)], 100) + put_record(1, b"/a", b"v", b"h", 5, [(1, 1)], 100)
        records += put_record(2, b"/b", b"u", b"g", 3, [(0, 1)], 100) + accessed_record(1, 100) + accessed_record(2, 100)
        records += removed_record(1, 100) + put_record(3, b"/c", b"u", b"g", 0, [], 100)
        check("their journal", area(folder, 0), records + b"\x00")
        check("the site's last moment", run(["run", folder], b"at 7\nput /d u g x\n"), (0, b"at 100\nok 4\n", b""))


def several_puts():
    with tempfile.TemporaryDirectory() as folder:
        lines = b"put /a u g hi\r\nput /empty u g\n# a comment\n\n  put /b v h  two  blanks \nfrob\nrm\nrm /none\nput a u g x"
        answers = b"ok 1\nok 2\nok 3\nrefused: not a command\nrefused: bad word 2\nrefused: no file\nrefused: bad path\n"
        check("several puts", run(["run", folder], lines), (0, answers, b""))
        records = put_record(1, b"/a", b"u", b"g", 2, [(0, 1)]) + put_record(2, b"/empty", b"u", b"g", 0, [])
        records += put_record(3, b"/b", b"v", b"h", 13, [(1, 1)])
        check("their journal", area(folder, 0), records + b"\x00")
        check("their cache", area(folder, 1), b"hi" + bytes(4094) + b" two  blanks ")
        check("a line too long", run(["run", folder], b"# " + b"x" * 4095 + b"\n"), (0, b"refused: line too long\n", b""))


def bad_journal():
    with tempfile.TemporaryDirectory() as folder:
        os.mkdir(os.path.join(folder, "bank"))
        for given, place in ((bytes.fromhex("0105000000ff00000000"), 0), (put_record(2, b"/a", b"u", b"g", 0, []), 0),
                             (put_record(1, b"/a", b"u", b"g", 0, []) + removed_record(2), len(put_record(1, b"/a", b"u", b"g", 0, [])))):
            with open(os.path.join(folder, "bank", "0"), "wb") as file:
                file.write(given)
            answer = b"bad journal at %d\n" % place
            check(f"a bad journal at {place}", run(["run", folder], b"put /b u g yo\n"), (2, answer, b""))
            check("it is as it was", area(folder, 0), given)


def no_space():
    with tempfile.TemporaryDirectory() as folder:
        lines = b"".join(b"make /f%d u g 16777216 %d\n" % (i, i) for i in range(1, 5))
        lines += b"put /x u g y\nput /x u g\nmake /y u g 16777217 0\nmake /f1 u g 1 0\nrm /f2\nmake /f1 u g 3 254\ncat /f1\n"
        answers = b"ok 1\nok 2\nok 3\nok 4\nrefused: no space\nok 5\nrefused: too large\nrefused: no space\nok 2\nok 1\nbytes 3\n\xfe\xff\x00\n"
        check("no space", run(["run", folder], lines), (0, answers, b""))
        made = bytes(i % 256 for i in range(3, 3 + 4096))
        check("made bytes", run(["run", folder], b"head /f3 4096\n"), (0, b"bytes 4096\n" + made + b"\n", b""))


SITE = b"cache = 1M\nlibrary = lib 2\nvolume = lib li V1 1M\nvolume = lib li V2 1M\n"


def configured_record(texts, moment=0):
    payload = b"\x01" + number(moment)
    for name in ("site.conf", "archiver.cmd", "stager.cmd", "releaser.cmd", "recycler.cmd"):
        payload += text(texts.get(name, b""))
    return b"\x01" + len(payload).to_bytes(4, "little") + payload


def write_texts(folder, texts):
    os.makedirs(folder, exist_ok=True)
    for name, content in texts.items():
        with open(os.path.join(folder, name), "wb") as file:
            file.write(content)


def configured():
    with tempfile.TemporaryDirectory() as folder:
        check("no command file", run(["run", folder], b"configure\n"), (0, b"ok 0\n", b""))
        journal = configured_record({})
        check("its journal", area(folder, 0), journal + b"\x00")
        texts = {"site.conf": SITE, "archiver.cmd": b"s .\n1 0\n", "recycler.cmd": b"lib -hwm 90\n"}
        write_texts(folder, texts)
        lines = b"at 9\nconfigure\nmake /a u g 1025k 0\nmake /a u g 1M 0\nconfigure\nrm /a\nconfigure\n"
        answers = b"at 9\nok 0\nrefused: no space\nok 1\nrefused: running\nok 1\nok 0\n"
        check("the site of the command files", run(["run", folder], lines), (0, answers, b""))
        journal += configured_record(texts, 9) + put_record(1, b"/a", b"u", b"g", 1048576, [(0, 256)], 9) + removed_record(1, 9)
        journal += configured_record(texts, 9)
        check("its journal then", area(folder, 0), journal + b"\x00")
        for name in texts:
            os.remove(os.path.join(folder, name))
        lines = b"make /a u g 1025k 0\nput /a u g x\nrm /a\nconfigure\nmake /b u g 64M 0\nmake /b u g 16M 0\n"
        answers = b"refused: no space\nok 2\nok 2\nok 0\nrefused: too large\nok 3\n"
        check("reopened by its journal alone", run(["run", folder], lines), (0, answers, b""))


def wrong_command_files():
    with tempfile.TemporaryDirectory() as folder:
        write_texts(folder, {"site.conf": SITE, "archiver.cmd": b"set1 .\n1 0\nset1 work -color red\n", "stager.cmd": b"frob\n"})
        lines = b"configure\nmake /a u g 16M 0\nfrob\nrm\nrm /none\n"
        answers = b"refused: archiver.cmd line 3: unknown directive\nok 1\nrefused: not a command\nrefused: bad word 2\nrefused: no file\n"
        check("a wrong command file", run(["run", folder], lines), (0, answers, b""))
    for name, content, answer in (
            ("site.conf", b"cache = 1M\nfs =\n", b"refused: site.conf line 2: missing field\n"),
            ("stager.cmd", b"\ndrives = none 1\n", b"refused: stager.cmd line 2: bad value\n"),
            ("releaser.cmd", b"weight_size = 1.5\n", b"refused: releaser.cmd line 1: bad value\n"),
            ("recycler.cmd", b"lib -hwm 101\n", b"refused: recycler.cmd line 1: out of range\n"),
            ("archiver.cmd", b"#" * 65536, b"ok 0\n"),
            ("archiver.cmd", b"#" * 65537, b"refused: too large\n"),
            ("archiver.cmd", b"s .\n\xff\n", b"refused: archiver.cmd line 2: not text\n")):
        with tempfile.TemporaryDirectory() as folder:
            write_texts(folder, {"site.conf": SITE, **{name: content}})
            check(f"{name} {content[:20]!r}", run(["run", folder], b"configure\n"), (0, answer, b""))


def first_refusal_of_a_configuration():
    """Where several things stand against a configuration: a file that is there, then a text too large, then the first wrong file."""
    wrong = {"site.conf": b"cache = 1M\n", "stager.cmd": b"frob\n", "releaser.cmd": b"frob\n"}
    large = {**wrong, "recycler.cmd": b"#" * 65537}
    for texts, lines, answers in (
            (wrong, b"configure\n", b"refused: stager.cmd line 1: unknown directive\n"),
            (large, b"configure\n", b"refused: too large\n"),
            (large, b"put /a u g x\nconfigure\n", b"ok 1\nrefused: running\n")):
        with tempfile.TemporaryDirectory() as folder:
            write_texts(folder, texts)
            check(f"first refusal of {len(texts)} files", run(["run", folder], lines), (0, answers, b""))


def large_pools():
    """A small text whose pools would be millions of expressions is refused within little memory."""
    pool = b"vsnpools\np li" + b" x" * 16300 + b"\nendvsnpools\n"
    for items, answer in (
            (b"li" + b" -pool p" * 4000, b"too many"),
            (b"li -pool q" + b" -pool p" * 4000, b"too many"),
            (b"lt" + b" -pool p" * 4000 + b" -pool q", b"unknown pool")):
        with tempfile.TemporaryDirectory() as folder:
            write_texts(folder, {"archiver.cmd": pool + b"vsns\nallsets " + items + b"\nendvsns\n"})
            limit = lambda: resource.setrlimit(resource.RLIMIT_AS, (1 << 29, 1 << 29))
            done = subprocess.run([SAMQ, "run", folder], input=b"configure\n", stdout=subprocess.PIPE, preexec_fn=limit, timeout=60)
            check("large pools", (done.returncode, done.stdout), (0, b"refused: archiver.cmd line 5: " + answer + b"\n"))


def bad_configuration_in_a_journal():
    """A journal whose record of a configuration may not stand where it does is bad at that record."""
    file = put_record(1, b"/a", b"u", b"g", 1, [(0, 1)])
    for name, before, texts in (
            ("over a file", file, {}),
            ("of a wrong text", b"", {"stager.cmd": b"frob\n"}),
            ("of a text too large", b"", {"recycler.cmd": b"#" * 65537})):
        with tempfile.TemporaryDirectory() as folder:
            os.mkdir(os.path.join(folder, "bank"))
            with open(os.path.join(folder, "bank", "0"), "wb") as journal:
                journal.write(before + configured_record(texts) + b"\x00")
            answer = b"bad journal at %d\n" % len(before)
            check(f"a configuration {name}", run(["run", folder], b"cat /a\n"), (2, answer, b""))


def folder_that_cannot_be_read():
    """A folder that stands where a command file should: it is there, and cannot be read."""
    with tempfile.TemporaryDirectory() as folder:
        write_texts(folder, {"site.conf": SITE})
        os.mkdir(os.path.join(folder, "archiver.cmd"))
        lines = b"configure\nmake /a u g 16M 0\nrm /a\n"
        check("a fault of the folder", run(["run", folder], lines), (3, b"fault: folder\nok 1\nok 1\n", b""))
        process = subprocess.Popen([SAMQ, "run", folder], stdin=subprocess.PIPE, stdout=subprocess.PIPE)
        process.stdin.write(b"configure\n")
        process.stdin.flush()
        check("again", process.stdout.readline(), b"fault: folder\n")
        os.rmdir(os.path.join(folder, "archiver.cmd"))
        out, _ = process.communicate(b"configure\nmake /a u g 16M 0\n", 60)
        check("mended while it runs", (process.returncode, out), (3, b"ok 0\nrefused: no space\n"))


def state_after(script):
    """What the files hold after these lines, by their paths."""
    files = {}
    for line in script:
        given = line.split(b" ")
        if given[0] == b"put":
            files[given[1]] = given[4]
        elif given[0] == b"rm":
            files.pop(given[1], None)
    return files


def script_of(chance, length):
    """Lines that put, replace and remove a few files, each of them answered by `ok`."""
    script, files = [], set()
    for i in range(length):
        path = b"/f%d" % chance.randrange(8)
        if path in files and chance.random() < 0.3:
            script.append(b"rm " + path)
            files.discard(path)
        else:
            script.append(b"put %s u g %s" % (path, b"%d-" % i * chance.randrange(1, 300)))
            files.add(path)
    return script


def contents(folder):
    given = b"".join(b"cat /f%d\n" % i for i in range(8))
    code, out, _ = run(["run", folder], given)
    files = {}
    for i in range(8):
        if out.startswith(b"refused: no file\n"):
            out = out[len(b"refused: no file\n"):]
            continue
        head, out = out.split(b"\n", 1)
        count = int(head.split(b" ")[1])
        files[b"/f%d" % i] = out[:count]
        out = out[count + 1:]
    return code, files


def killed():
    """A process is killed at a random moment: what it acknowledged is there, and at most one line more."""
    chance = random.Random(7)
    for turn in range(12):
        with tempfile.TemporaryDirectory() as folder:
            script = script_of(chance, 400)
            process = subprocess.Popen([SAMQ, "run", folder], stdin=subprocess.PIPE, stdout=subprocess.PIPE)
            os.set_blocking(process.stdin.fileno(), False)
            given = b"\n".join(script) + b"\n"
            process.stdin.write(given[:60000])
            process.stdin.flush()
            time.sleep(chance.random() * 0.25)
            process.send_signal(signal.SIGKILL)
            answers = process.stdout.read().split(b"\n")
            process.wait(60)
            acknowledged = len([answer for answer in answers[:-1] if answer.startswith(b"ok ")])
            code, files = contents(folder)
            kept = files in (state_after(script[:acknowledged]), state_after(script[:acknowledged + 1]))
            check(f"killed {turn}: after {acknowledged} answers", (code, kept), (0, True))


def run_noted(top, folder, given, **more):
    """Runs the program over the library that notes its calls; gives its status, what it answered and the calls, each as its words."""
    library, notes = os.path.join(top, "calls.so"), os.path.join(top, "calls")
    if not os.path.exists(library):
        source = os.path.join(TOP, "tests", "calls.c")
        subprocess.run(["cc", "-O1", "-shared", "-fPIC", "-o", library, source, "-ldl"], check=True)
    names = dict(os.environ, LD_PRELOAD=library, CALLS=notes, **more)
    done = subprocess.run([SAMQ, "run", folder], input=given, stdout=subprocess.PIPE, stderr=subprocess.PIPE, env=names, timeout=60)
    with open(notes) as file:
        return done.returncode, done.stdout, [line.split(" ") for line in file.read().splitlines()]


def under_calls(top, folder, given, **more):
    """What the program answered, and its writes and syncs."""
    _, out, calls = run_noted(top, folder, given, **more)
    return out, [words for words in calls if words[0] != "read"]


def answers_after_syncs():
    """The calls of the store and of the output, numbered together: an answer goes out behind the last sync of its step."""
    with tempfile.TemporaryDirectory() as top:
        given = b"put /a u g hi\nput /a u g ho\ncat /a\nrm /a\n"
        out, calls = under_calls(top, os.path.join(top, "site"), given)
        check("answers", out, b"ok 1\nok 1\nbytes 2\nho\nok 1\n")
        made = [(words[0], words[1]) for words in calls if words[1] in ("0", "1", "answer")]
        opening = [("sync", "0")] if made[:1] == [("sync", "0")] else []
        record = [("write", "0"), ("sync", "0"), ("write", "0"), ("sync", "0"), ("write", "answer")]
        put = [("write", "1"), ("sync", "1")] + record
        check("calls in order", made, opening + put + put + record + record)


def killed_at_each_call():
    """A process is killed before each of its calls: what it acknowledged is there, and at most one line more."""
    script = [b"put /f1 u g one", b"put /f2 u g two", b"put /f1 u g three", b"rm /f2", b"put /f3 u g " + b"x" * 4000, b"rm /f1"]
    given = b"\n".join(script) + b"\n"
    with tempfile.TemporaryDirectory() as top:
        _, calls = under_calls(top, os.path.join(top, "whole"), given)
        for number_of_call in range(1, len(calls) + 1):
            folder = os.path.join(top, str(number_of_call))
            out, _ = under_calls(top, folder, given, CALLS_KILL=str(number_of_call))
            acknowledged = out.count(b"\n")
            code, files = contents(folder)
            kept = files in (state_after(script[:acknowledged]), state_after(script[:acknowledged + 1]))
            check(f"killed at call {number_of_call}: after {acknowledged} answers", (code, kept), (0, True))


def has_small_cache(folder):
    """Whether the site's cache is that of SITE, tried by a file that is larger, while no file is there."""
    _, out, _ = run(["run", folder], b"make /large u g 2M 0\nrm /large\n")
    return out.startswith(b"refused: no space")


def killed_while_configuring():
    """A process is killed before each of the calls of a `configure`: the site is the old one or the new one, and the new one once
    that was acknowledged."""
    with tempfile.TemporaryDirectory() as top:
        def site(name):
            folder = os.path.join(top, name)
            write_texts(folder, {"site.conf": SITE})
            return folder
        _, calls = under_calls(top, site("whole"), b"configure\n")
        seen = set()
        for number_of_call in range(1, len(calls) + 1):
            folder = site(str(number_of_call))
            out, _ = under_calls(top, folder, b"configure\n", CALLS_KILL=str(number_of_call))
            small = has_small_cache(folder)
            seen.add(small)
            check(f"configure killed at call {number_of_call}", small or out == b"", True)
        check("both sites were seen", seen, {False, True})


def words():
    for given in ([], ["run"], ["run", "a", "b"], ["walk", "a"], ["talk", "a"]):
        code, out, err = run(given, b"put /a u g hi\n")
        check(f"words {given}", (code, out), (1, b""))
        check(f"usage {given}", err.startswith(b"usage: samq run DIR"), True)


def locked():
    with tempfile.TemporaryDirectory() as folder:
        first = subprocess.Popen([SAMQ, "run", folder], stdin=subprocess.PIPE, stdout=subprocess.PIPE)
        first.stdin.write(b"put /a u g hi\n")
        first.stdin.flush()
        check("the first process", first.stdout.readline(), b"ok 1\n")
        code, out, err = run(["run", folder], b"put /b u g yo\n")
        check("a second process beside it", (code, out), (3, b""))
        check("it says why", b"in use" in err, True)
        first.stdin.close()
        check("the first one's end", first.wait(60), 0)


def no_folder():
    with tempfile.NamedTemporaryFile() as file:
        code, out, err = run(["run", os.path.join(file.name, "site")], b"put /a u g hi\n")
        check("a folder that cannot be made", (code, out), (3, b""))
        check("it says so", err != b"", True)
    code, out, err = run(["run", ""], b"put /a u g hi\n")
    check("a folder without a name", (code, out), (3, b""))
    check("it says that", err != b"", True)


def main():
    if not os.path.exists(SAMQ):
        print(f"skipped: {SAMQ} is not built")
        return 0
    for test in (first_put, replaced_and_removed, several_puts, bad_journal, no_space, configured, wrong_command_files,
                 first_refusal_of_a_configuration, large_pools, bad_configuration_in_a_journal, folder_that_cannot_be_read, killed, words, locked, no_folder):
        test()
    if shutil.which("cc"):
        answers_after_syncs()
        killed_at_each_call()
        killed_while_configuring()
    else:
        print("skipped the tests over numbered calls: no C compiler")
    print(f"{passed} passed, {failed} failed")
    return 1 if failed else 0


if __name__ == "__main__":
    sys.exit(main())
