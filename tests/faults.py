#!/usr/bin/env python3
"""Drives the built program where the host fails: a call that fails or moves less than was asked, a folder or a file that is gone,
a stream that is closed, a limit on the size of files. Run after `rt ci`, like store.py."""
import collections
import os
import resource
import shutil
import signal
import stat
import subprocess
import sys
import tempfile

import store
from store import SAMQ, area, check, has_small_cache, run, run_noted, write_texts

PUTS = b"put /a u g one\nput /b u g two\n"
CATS = b"cat /a\ncat /b\n"
ONE, TWO = b"bytes 3\none\n", b"bytes 3\ntwo\n"


def filled(top, name):
    """A store that holds two files."""
    folder = os.path.join(top, name)
    check("two files", run(["run", folder], PUTS), (0, b"ok 1\nok 2\n", b""))
    return folder


def failing(top, folder, given, calls):
    """Runs the program while these calls fail; gives its status, what it answered, and how often each kind of call was made."""
    status, out, noted = run_noted(top, folder, given, CALLS_FAIL=calls)
    return (status, out), collections.Counter(" ".join(words[:2]) for words in noted)


def reads():
    """A read that fails is a fault, and no zeros stand for what it did not give."""
    with tempfile.TemporaryDirectory() as top:
        folder = filled(top, "cache")
        got, made = failing(top, folder, b"cat /a\ncat /a\n", "read:1:1:EIO")
        check("a read of the cache", got, (3, b"fault: bank\n" + ONE))
        check("it is made again by the next line alone", made["read 1"], 2)
        folder = filled(top, "journal")
        before = area(folder, 0)
        for call in ("read:0:1:EIO", "read:0:2:EIO"):
            check(f"{call} at opening", failing(top, folder, b"put /c u g x\n", call)[0], (3, b""))
            check("the journal is as it was", area(folder, 0), before)
        for call in ("read:0:1:EINTR", "read:1:1:EINTR", "read:0:0:1", "read:1:0:1", "read:1:1:2"):
            check(call, failing(top, folder, CATS, call)[0], (0, ONE + TWO))


def writes():
    """A write that fails leaves the site as it was, also where it is read again."""
    calls = [f"write:{name}:{number}:{error}" for name, number in ((1, 1), (0, 1), (0, 2)) for error in ("EIO", "ENOSPC")]
    with tempfile.TemporaryDirectory() as top:
        for call in [*calls, "write:1:1:1,write:1:2:EIO", "write:0:1:9,write:0:2:ENOSPC"]:
            folder = os.path.join(top, call)
            check(call, failing(top, folder, PUTS + b"cat /b\n", call)[0], (3, b"fault: bank\nok 1\n" + TWO))
            check(f"behind {call}", run(["run", folder], CATS), (0, b"refused: no file\n" + TWO, b""))
        for call in ("write:1:1:EINTR", "write:0:1:EINTR", "write:0:2:EINTR", "write:1:0:1", "write:0:0:1"):
            folder = os.path.join(top, call)
            check(call, failing(top, folder, PUTS, call)[0], (0, b"ok 1\nok 2\n"))
            check(f"behind {call}", run(["run", folder], CATS), (0, ONE + TWO, b""))


def syncs():
    """After a sync that failed none is tried again, and nothing that waits for it is acknowledged."""
    with tempfile.TemporaryDirectory() as top:
        for name in ("1", "0", "bank"):
            for error in ("EIO", "ENOSPC"):
                call = f"sync:{name}:1:{error}"
                folder = os.path.join(top, call)
                got, made = failing(top, folder, PUTS + b"rm /a\n", call)
                last = b"refused: no file\n" if name != "0" else b"fault: bank\n"
                check(call, got, (3, b"fault: bank\nfault: bank\n" + last))
                check(f"{call} is tried once", made[f"sync {name}"], 1)
                check(f"behind {call}", run(["run", folder], b"put /c u g x\n")[1], b"ok 1\n")
            check(f"an interrupted sync of {name}", failing(top, os.path.join(top, name), PUTS, f"sync:{name}:1:EINTR")[0], (0, b"ok 1\nok 2\n"))
        folder = filled(top, "opened")
        got, made = failing(top, folder, b"cat /a\n", "sync:0:1:EIO")
        check("the first sync of the journal", (got, made["sync 0"], made["read 0"]), ((3, b""), 1, 0))
        got, made = failing(top, folder, b"cat /a\ncat /a\nput /c u g x\n", "sync:1:1:EIO")
        check("the first sync of the cache", got, (3, b"fault: bank\n" * 3))
        check("it is tried once", (made["sync 1"], made["read 1"], made["write 1"]), (1, 0, 0))


def folders():
    """The names of the folders that are made, and of the files in them, are on the medium before the first answer."""
    with tempfile.TemporaryDirectory() as top:
        given = b"put /x u g y\n"
        status, out, noted = run_noted(top, os.path.join(top, "a", "b", "site"), given)
        check("a store in new folders", (status, out), (0, b"ok 1\n"))
        names = [words[1] for words in noted[:[words[1] for words in noted].index("answer")] if words[0] == "sync"]
        for name in (os.path.basename(top), "a", "b", "site", "bank"):
            check(f"the sync of {name}", name in names, True)
        order = [name for place, name in enumerate(names) if name in ("a", "b", "site", "bank") and name not in names[:place]]
        check("a folder before those in it", order, ["a", "b", "site", "bank"])
        for name in ("b", "c", "site"):
            folder = os.path.join(top, f"fails-{name}", "b", "c", "site")
            check(f"a sync of {name} that fails", failing(top, folder, given, f"sync:{name}:1:EIO")[0], (3, b""))
            check("then as ever", run(["run", folder], given), (0, b"ok 1\n", b""))


def streams():
    """Lines and answers where standard input or output fails."""
    with tempfile.TemporaryDirectory() as top:
        answers = b"ok 1\nok 2\n"
        for call, wanted in (
                ("read:input:1:EIO", (4, b"")), ("read:input:2:EIO", (4, answers)), ("read:input:1:EINTR", (0, answers)),
                ("read:input:2:EINTR", (0, answers)), ("read:input:0:1", (0, answers)), ("write:answer:1:EIO", (5, b"")),
                ("write:answer:2:ENOSPC", (5, b"ok 1\n")), ("write:answer:1:EINTR", (0, answers)), ("write:answer:2:EINTR", (0, answers)),
                ("write:answer:0:1", (0, answers)), ("write:answer:1:2,write:answer:2:EIO", (5, b"ok"))):
            folder = os.path.join(top, call)
            check(call, failing(top, folder, PUTS, call)[0], wanted)
            if wanted[0] == 5:
                stands = run(["run", folder], b"put /a u g one\n")
                check(f"what was not acknowledged behind {call}", stands, (0, b"ok 1\n", b""))


def command_files():
    """A command file that cannot be read is a fault, and no empty text."""
    with tempfile.TemporaryDirectory() as top:
        for call, wanted in (("read:site.conf:1:EIO", (3, b"fault: folder\n")), ("read:site.conf:2:EIO", (3, b"fault: folder\n")),
                             ("read:site.conf:1:EINTR", (0, b"ok 0\n")), ("read:site.conf:0:1", (0, b"ok 0\n"))):
            folder = os.path.join(top, call)
            write_texts(folder, {"site.conf": store.SITE})
            check(call, failing(top, folder, b"configure\n", call)[0], wanted)
            check(f"the site behind {call}", has_small_cache(folder), wanted[0] == 0)
        folder = os.path.join(top, "link")
        os.mkdir(folder)
        os.symlink("none", os.path.join(folder, "site.conf"))
        check("a link that leads nowhere", run(["run", folder], b"configure\n"), (3, b"fault: folder\n", b""))


class Running:
    """The program while it runs."""

    def __init__(self, folder):
        self.process = subprocess.Popen([SAMQ, "run", folder], stdin=subprocess.PIPE, stdout=subprocess.PIPE)

    def ask(self, line):
        self.process.stdin.write(line + b"\n")
        self.process.stdin.flush()
        return self.process.stdout.readline()

    def end(self):
        self.process.stdin.close()
        return self.process.wait(60)


def folder_that_is_gone():
    """A folder that was moved, as one that was unmounted, is not one without command files; nor is the one below it."""
    with tempfile.TemporaryDirectory() as top:
        folder, aside = os.path.join(top, "site"), os.path.join(top, "aside")
        write_texts(folder, {"site.conf": store.SITE})
        running = Running(folder)
        check("it runs", (running.ask(b"put /a u g x"), running.ask(b"rm /a")), (b"ok 1\n", b"ok 1\n"))
        os.rename(folder, aside)
        check("gone", running.ask(b"configure"), b"fault: folder\n")
        os.mkdir(folder)
        check("another folder in its place", running.ask(b"configure"), b"fault: folder\n")
        write_texts(folder, {"site.conf": b"cache = 2M\n"})
        check("with a file of its own", running.ask(b"configure"), b"fault: folder\n")
        check("its store is gone too", running.ask(b"put /a u g x"), b"fault: bank\n")
        shutil.rmtree(folder)
        os.rename(aside, folder)
        check("there again", running.ask(b"configure"), b"ok 0\n")
        check("the site of its texts", running.ask(b"make /a u g 1025k 0"), b"refused: no space\n")
        check("the end", running.end(), 3)


def area_that_is_gone():
    """A step is not acknowledged where the file that it stands in has lost its name."""
    with tempfile.TemporaryDirectory() as top:
        for name in ("0", "1"):
            folder = os.path.join(top, name)
            file, aside = os.path.join(folder, "bank", name), os.path.join(folder, "aside")
            running = Running(folder)
            check("a first file", running.ask(b"put /a u g one"), b"ok 1\n")
            os.rename(file, aside)
            check(f"area {name} is gone", running.ask(b"put /b u g two"), b"fault: bank\n")
            with open(file, "wb"):
                pass
            check(f"another file for area {name}", running.ask(b"put /b u g two"), b"fault: bank\n")
            os.rename(aside, file)
            check(f"area {name} is there again", running.ask(b"put /b u g two"), b"ok 2\n")
            check("the end", running.end(), 3)
            check("both files", run(["run", folder], CATS), (0, ONE + TWO, b""))


def closed_streams():
    """No file of the store gets the number of a stream that is closed."""
    with tempfile.TemporaryDirectory() as top:
        for closed, wanted in ((">&-", (5, b"")), ("<&-", (4, b"")), ("<&- >&- 2>&-", (4, b"")), ("2>&-", (0, b"ok 1\nok 2\n"))):
            folder = os.path.join(top, closed.replace(" ", ""))
            words = ["sh", "-c", f'exec "$@" {closed}', "sh", SAMQ, "run", folder]
            done = subprocess.run(words, input=PUTS, stdout=subprocess.PIPE, timeout=60)
            check(f"with {closed}", (done.returncode, done.stdout), wanted)
            check(f"the lock file with {closed}", os.path.getsize(os.path.join(folder, "bank", "lock")), 0)
            running = Running(folder)
            check("it runs", running.ask(b"at 5"), b"at 5\n")
            done = subprocess.run(words, input=PUTS, stdout=subprocess.PIPE, stderr=subprocess.PIPE, timeout=60)
            check(f"in use, with {closed}", (done.returncode, done.stdout), (3, b""))
            check("the lock file then", os.path.getsize(os.path.join(folder, "bank", "lock")), 0)
            check("the end", running.end(), 0)


def limit_on_files():
    """A write beyond the limit on the size of files is a fault, and does not end the program."""
    with tempfile.TemporaryDirectory() as top:
        folder = os.path.join(top, "site")
        lines = b"put /a u g one\nmake /large u g 100k 3\nput /b u g two\ncat /a\n"
        limit = lambda: resource.setrlimit(resource.RLIMIT_FSIZE, (8192, 8192))
        done = subprocess.run([SAMQ, "run", folder], input=lines, stdout=subprocess.PIPE, preexec_fn=limit, timeout=60)
        check("a limit on the cache", (done.returncode, done.stdout), (3, b"ok 1\nfault: bank\nok 2\n" + ONE))
        check("without it", run(["run", folder], b"make /large u g 100k 3\n" + CATS), (0, b"ok 3\n" + ONE + TWO, b""))
        limit = lambda: resource.setrlimit(resource.RLIMIT_FSIZE, (40, 40))
        done = subprocess.run([SAMQ, "run", os.path.join(top, "small")], input=PUTS, stdout=subprocess.PIPE, preexec_fn=limit, timeout=60)
        check("a limit on the journal", (done.returncode, done.stdout), (3, b"fault: bank\n" * 2))

        def limited():
            resource.setrlimit(resource.RLIMIT_FSIZE, (4096, 4096))
            signal.signal(signal.SIGXFSZ, signal.SIG_IGN)
        with open(os.path.join(top, "answers"), "wb") as answers:
            done = subprocess.run([SAMQ, "run", folder], input=b"at 5\n" * 1000, stdout=answers, preexec_fn=limited, restore_signals=False, timeout=60)
        check("a limit on the output", (done.returncode, os.path.getsize(os.path.join(top, "answers"))), (5, 4096))


def permissions():
    """What is made is for the owner alone; what was there stays as it is."""
    with tempfile.TemporaryDirectory() as top:
        folder = os.path.join(top, "there", "a", "site")
        os.mkdir(os.path.join(top, "there"))
        os.chmod(os.path.join(top, "there"), 0o755)
        before = os.umask(0)
        try:
            check("a put", run(["run", folder], b"put /x u g y\n"), (0, b"ok 1\n", b""))
        finally:
            os.umask(before)
        mode = lambda *names: stat.S_IMODE(os.stat(os.path.join(top, "there", *names)).st_mode)
        check("folders", (mode(), mode("a"), mode("a", "site"), mode("a", "site", "bank")), (0o755, 0o700, 0o700, 0o700))
        check("files", [mode("a", "site", "bank", name) for name in ("lock", "0", "1")], [0o600] * 3)


def main():
    if not os.path.exists(SAMQ):
        print(f"skipped: {SAMQ} is not built")
        return 0
    for test in (folder_that_is_gone, area_that_is_gone, closed_streams, limit_on_files, permissions):
        test()
    if shutil.which("cc"):
        for test in (reads, writes, syncs, folders, streams, command_files):
            test()
    else:
        print("skipped the tests of calls that fail: no C compiler")
    print(f"{store.passed} passed, {store.failed} failed")
    return 1 if store.failed else 0


if __name__ == "__main__":
    sys.exit(main())
