"""Answers lines as docs/LINES.md describes them: an independent machine, with plain maps and whole byte strings, and no journal.

It shares no code and no definition with the program, and is a second opinion on what these say. Its authors knew the program: that a
tab is a blank was taken from the lines' description once an answer had differed.
"""
import re

from reference import reader

LONGEST_LINE = 4_096
LARGEST_FILE = 16_777_216
BLOCK = 4_096
# The words of each line behind its name, by their forms. A path, an owner and a group may be any word: rules judge them.
FORMS = {
    b"at": ("moment",),
    b"make": ("any", "any", "any", "size", "seed"),
    b"cat": ("any",),
    b"head": ("any", "count"),
    b"rm": ("any",),
    b"configure": (),
}


def number(word, most):
    return re.fullmatch(rb"[0-9]{1,20}", word) is not None and int(word) <= most


def size(word):
    try:
        return reader.size(word)
    except reader.Refused:
        return None


IS_OF_FORM = {
    "any": lambda word: True,
    "moment": lambda word: number(word, 2**40 - 1),
    "count": lambda word: number(word, LARGEST_FILE),
    "size": lambda word: size(word) is not None,
    "seed": lambda word: re.fullmatch(rb"[0-9]{1,9}", word) is not None,
}


def is_path(word):
    try:
        text = word.decode("utf-8")
    except UnicodeDecodeError:
        return False
    parts = text.split("/")[1:]
    return (2 <= len(word) <= 1_024 and text.startswith("/") and not any(it in ("", ".", "..") for it in parts)
            and not re.search("[\x00-\x20\x7f-\x9f]", text))


def is_name(word):
    return re.fullmatch(rb"[A-Za-z0-9_.-]{1,32}", word) is not None


def blocks(length):
    return (length + BLOCK - 1) // BLOCK


def made(length, seed):
    return (bytes((at + seed) % 256 for at in range(256)) * (length // 256 + 1))[:length]


def lines(text):
    """Cuts what a run reads into lines."""
    found = text.split(b"\n")
    return [it[:-1] if it.endswith(b"\r") else it for it in found[:-1]] + [it for it in found[-1:] if it]


class Machine:
    """A site over several runs; `texts` are the five command files that its folder has."""

    def __init__(self, texts):
        self.texts = texts
        self.files = {}
        self.next_inode = 1
        self.blocks = 64 * 2**20 // BLOCK
        self.last_step = 0
        self.moment = 0

    def run(self, text):
        """Gives what one run over these bytes writes."""
        self.moment = self.last_step
        answers = [self.answer(it) for it in lines(text)]
        return b"".join(it + b"\n" for it in answers if it is not None)

    def answer(self, line):
        words = re.findall(rb"[^ \t]+", line)
        if len(line) > LONGEST_LINE:
            return b"refused: line too long"
        if not words or line.startswith(b"#"):
            return None
        name, given = words[0], words[1:]
        if name == b"put":
            return self.put_line(line, given)
        if name not in FORMS:
            return b"refused: not a command"
        forms = FORMS[name]
        for at, form in enumerate(forms):
            if at == len(given) or not IS_OF_FORM[form](given[at]):
                return b"refused: bad word %d" % (at + 2)
        if len(given) > len(forms):
            return b"refused: bad word %d" % (len(forms) + 2)
        return getattr(self, name.decode())(*given)

    def step(self, answer):
        self.last_step = self.moment
        return answer

    def at(self, word):
        self.moment = max(self.moment, int(word))
        return b"at %d" % self.moment

    def put_line(self, line, given):
        if len(given) < 3:
            return b"refused: bad word %d" % (len(given) + 2)
        behind = re.match(rb"[ \t]*put(?:[ \t]+[^ \t]+){3}", line).end()
        return self.put(*given[:3], line[behind + 1 :])

    def make(self, path, owner, group, length, seed):
        return self.put(path, owner, group, made(min(size(length), LARGEST_FILE + 1), int(seed)))

    def put(self, path, owner, group, content):
        inode, old = self.files.get(path, (self.next_inode, None))
        if not is_path(path):
            return b"refused: bad path"
        if not (is_name(owner) and is_name(group)):
            return b"refused: bad attribute"
        if len(content) > LARGEST_FILE:
            return b"refused: too large"
        # The blocks of a replaced file are free only once the new ones are held.
        if blocks(len(content)) > self.blocks - sum(blocks(len(it)) for _, it in self.files.values()):
            return b"refused: no space"
        self.next_inode += old is None
        self.files[path] = inode, content
        return self.step(b"ok %d" % inode)

    def head(self, path, count=b"%d" % LARGEST_FILE):
        if path not in self.files:
            return b"refused: no file"
        found = self.files[path][1][: int(count)]
        return self.step(b"bytes %d\n%b" % (len(found), found))

    def cat(self, path):
        return self.head(path)

    def rm(self, path):
        if path not in self.files:
            return b"refused: no file"
        return self.step(b"ok %d" % self.files.pop(path)[0])

    def configure(self):
        answer = b"refused: running" if self.files else reader.configure(self.texts).encode()
        if answer != b"ok 0":
            return answer
        site = reader.Site()
        reader.read(reader.FILES[0], self.texts[0], site)
        self.blocks = site.single.get(b"cache", 64 * 2**20) // BLOCK
        return self.step(answer)
