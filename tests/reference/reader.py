"""Reads the five command files as docs/COMMAND_FILES.md describes them, and says what `configure` answers.

It follows the description, with regular expressions and whole lists, and shares no code and no definition with the program: a second
opinion on what the definitions say, since a proof shows that the program does what they say and not that they say the right thing.
Its authors knew the program, so it may share a misreading with it.
"""
import re

FILES = ("site.conf", "archiver.cmd", "stager.cmd", "releaser.cmd", "recycler.cmd")
LONGEST = 65_536

UNKNOWN = "unknown directive"
MISSING = "missing field"
EXTRA = "extra field"
BAD = "bad value"
BEFORE_SET = "copy before set"
TWICE = "copy twice"
NO_SET = "unknown set"
NO_POOL = "unknown pool"
NOT_CLOSED = "section not closed"
TOO_MANY = "too many"
CONFLICT = "conflict"
DUPLICATE = "duplicate"
OUT_OF_RANGE = "out of range"
NOT_TEXT = "not text"
FAULTS = (UNKNOWN, MISSING, EXTRA, BAD, BEFORE_SET, TWICE, NO_SET, NO_POOL, NOT_CLOSED, TOO_MANY, CONFLICT, DUPLICATE, OUT_OF_RANGE,
          NOT_TEXT)


class Refused(Exception):
    """A line is refused; the reader of the file adds its number."""

    def __init__(self, fault, line=0):
        super().__init__(fault)
        self.fault = fault
        self.line = line


def need(holds, fault=BAD):
    if not holds:
        raise Refused(fault)


def lines(text):
    """Gives the number, the fields and the bytes of each line that has fields."""
    try:
        text.decode("utf-8")
    except UnicodeDecodeError as error:
        raise Refused(NOT_TEXT, text[: error.start].count(b"\n") + 1) from None
    physical = text.split(b"\n")
    physical = [line[:-1] if line.endswith(b"\r") else line for line in physical[:-1]] + [it for it in physical[-1:] if it]
    found, joined, first = [], b"", 1
    for number, line in enumerate(physical, 1):
        kept, comment, _ = line.partition(b"#")
        goes_on = not comment and kept.endswith(b"\\")
        joined += kept[:-1] if goes_on else kept
        if not goes_on:
            fields = re.findall(rb"[^ \t]+", joined)
            if fields:
                found.append((first, fields, joined))
            joined, first = b"", number + 1
    if first <= len(physical):
        raise Refused(NOT_TEXT, len(physical))
    return found


SECONDS = {b"": 1, b"s": 1, b"m": 60, b"h": 3_600, b"d": 86_400, b"w": 604_800, b"y": 31_536_000}


def age(word):
    need(re.fullmatch(rb"([0-9]{1,12}[smhdwy])*[0-9]{1,12}[smhdwy]?", word))
    need(sum(int(count) * SECONDS[unit] for count, unit in re.findall(rb"([0-9]+)([smhdwy]?)", word)) < 2**40)


def size(word, least=0, most=2**50, multiple=1):
    form = re.fullmatch(rb"([0-9]{1,15})([kmgt]?)", word.lower())
    need(form)
    value = int(form[1]) * 1024 ** [b"", b"k", b"m", b"g", b"t"].index(form[2])
    need(value < 2**50)
    need(least <= value <= most and value % multiple == 0, OUT_OF_RANGE)
    return value


def number(word, least=0, most=999_999_999):
    need(re.fullmatch(rb"[0-9]{1,9}", word))
    need(least <= int(word) <= most, OUT_OF_RANGE)
    return int(word)


def percent(word):
    return number(word, 0, 100)


def weight(word):
    need(re.fullmatch(rb"[01]|[01]?\.[0-9]{1,6}", word))
    need(float(word) <= 1)


def name(word):
    need(re.fullmatch(rb"[A-Za-z0-9_.-]{1,32}", word))


def media(word):
    need(re.fullmatch(rb"[a-z0-9]{2}", word))


def any_word(_):
    pass


def one_of(*words):
    return lambda word: need(word in words)


class Fields:
    """The fields of a line, taken from the left; it ends where none may follow."""

    def __init__(self, fields):
        self.left = list(fields)

    def take(self, form=any_word):
        need(self.left, MISSING)
        word = self.left.pop(0)
        form(word)
        return word

    def end(self):
        need(not self.left, EXTRA)

    def options(self, table):
        """Takes options to the line's end: a table has each option's name, and the form of its value or None. `-bufsize=N` is one field."""
        while self.left:
            option = self.take()
            if option.startswith(b"-bufsize="):
                option, _, value = option.partition(b"=")
                self.left.insert(0, value)
            need(option in table, UNKNOWN if option.startswith(b"-") else EXTRA)
            if table[option]:
                self.take(table[option])


def is_value_line(fields):
    return b"=" in fields[0] or fields[1:2] != [] and fields[1].startswith(b"=")


def value_line(line, names):
    """Gives the name of a value line and its values."""
    left, _, right = line.partition(b"=")
    directive = left.strip(b" \t")
    need(directive, MISSING)
    need(directive in names, UNKNOWN)
    return directive, Fields(re.findall(rb"[^ \t]+", right))


class Reader:
    """Takes the lines of a file one after another; the other files' readers know what site.conf says."""

    def __init__(self, site):
        self.site = site

    def end(self):
        """Takes the text's end."""


class Site(Reader):
    def __init__(self):
        super().__init__(self)
        self.single = {}
        self.libraries = []
        self.volumes = []

    def line(self, _, fields, line):
        need(is_value_line(fields), UNKNOWN)
        directive, values = value_line(line, (b"fs", b"cache", b"high", b"low", b"library", b"volume"))
        need(directive not in self.single, DUPLICATE)
        getattr(self, directive.decode())(values)
        values.end()

    def fs(self, values):
        self.single[b"fs"] = values.take(name)

    def cache(self, values):
        self.single[b"cache"] = size(values.take(lambda word: size(word, 4_096, 64 * 2**30, 4_096)))

    def high(self, values):
        self.single[b"high"] = int(values.take(percent))
        self.low_to_high()

    def low(self, values):
        self.single[b"low"] = int(values.take(percent))
        self.low_to_high()

    def low_to_high(self):
        need(self.single.get(b"low", 0) <= self.single.get(b"high", 100), CONFLICT)

    def library(self, values):
        need(len(self.libraries) < 64, TOO_MANY)
        library = values.take(name)
        need(library not in self.libraries, DUPLICATE)
        values.take(lambda word: number(word, 1, 64))
        self.libraries.append(library)

    def volume(self, values):
        need(len(self.volumes) < 1_024, TOO_MANY)
        need(values.take(name) in self.libraries, CONFLICT)
        values.take(media)
        volume = values.take(name)
        need(volume not in self.volumes, DUPLICATE)
        values.take(lambda word: size(word, 512, 2**45, 512))
        self.volumes.append(volume)


def copy_order(word):
    copies = word.split(b":")
    need(all(re.fullmatch(rb"0{0,8}[1-4]", it) for it in copies))
    need(len({int(it) for it in copies}) == len(copies))


class Stager(Reader):
    def line(self, _, fields, line):
        need(is_value_line(fields), UNKNOWN)
        directive, values = value_line(line, (b"drives", b"maxactive", b"copysel", b"bufsize", b"directio", b"logfile"))
        if directive == b"drives":
            need(values.take() in self.site.libraries)
            values.take(lambda word: number(word, 0, 64))
        elif directive == b"maxactive":
            values.take(lambda word: number(word, 1, 65_536))
        elif directive == b"copysel":
            values.take(copy_order)
        else:
            values.take()
            return
        values.end()


class Releaser(Reader):
    SEPARATE = {b"weight_age_access", b"weight_age_modify", b"weight_age_residence"}
    WEIGHTS = {b"weight_age", b"weight_size"} | SEPARATE
    NO_EFFECT = {b"logfile", b"list_size", b"display_all_candidates", b"debug_partial"}
    BARE = {b"no_release", b"rearch_no_release", b"display_all_candidates", b"debug_partial"}

    def __init__(self, site):
        super().__init__(site)
        self.part = b""
        self.given = {}

    def line(self, _, fields, line):
        if not is_value_line(fields):
            need(fields[0] in self.BARE, UNKNOWN)
            need(len(fields) == 1, EXTRA)
            return
        directive, values = value_line(line, self.WEIGHTS | self.NO_EFFECT | {b"min_residence_age", b"fs"})
        given = self.given.setdefault(self.part, set())
        need(not (directive in self.SEPARATE and b"weight_age" in given), CONFLICT)
        need(not (directive == b"weight_age" and given & self.SEPARATE), CONFLICT)
        if directive in self.WEIGHTS:
            values.take(weight)
            given.add(directive)
        elif directive == b"min_residence_age":
            values.take(age)
        elif directive == b"fs":
            self.part = values.take(name)
        else:
            values.take()
            return
        values.end()


class Recycler(Reader):
    OPTIONS = {b"-hwm": percent, b"-mingain": percent, b"-vsncount": number, b"-dataquantity": size, b"-ignore": None, b"-mail": any_word}

    def line(self, _, fields, line):
        if is_value_line(fields):
            value_line(line, (b"logfile",))[1].take()
            return
        left = Fields(fields)
        first = left.take()
        if first == b"no_recycle":
            left.take(media)
            left.take()
            return
        need(first in self.site.libraries, UNKNOWN)
        left.options(self.OPTIONS)


def set_word(word):
    need(re.fullmatch(rb"[A-Za-z][A-Za-z0-9_]{0,28}", word))


def member_path(word):
    text = word.decode()
    parts = text.split("/")
    is_legal = len(word) <= 1_023 and not any(it in ("", ".", "..") for it in parts)
    need(text == "." or is_legal and not re.search("[\x00-\x20\x7f-\x9f]", text))


class Archiver(Reader):
    NO_EFFECT = {b"bufsize", b"directio", b"logfile", b"notify", b"timeout", b"setarchdone", b"examine", b"background_interval",
                 b"background_time", b"interval", b"scanlist_squash", b"drives"}
    CRITERIA = {b"-name": any_word, b"-user": name, b"-group": name, b"-minsize": size, b"-maxsize": size, b"-access": age,
                b"-release": one_of(b"n", b"a", b"p", b"d"), b"-stage": one_of(b"n", b"a", b"d")}
    ORDERS = one_of(b"path", b"age", b"size", b"none")
    PARAMS = {b"-archmax": size, b"-fillvsns": None, b"-join": one_of(b"path", b"none"), b"-sort": ORDERS, b"-rsort": ORDERS,
              b"-ovflmin": size, b"-startage": age, b"-startcount": lambda word: number(word, 1), b"-startsize": size,
              b"-unarchage": one_of(b"access", b"modify"), b"-recycle_hwm": percent, b"-recycle_mingain": percent,
              b"-recycle_vsncount": number, b"-recycle_dataquantity": size, b"-recycle_ignore": None, b"-lock": None,
              b"-tapenonstop": None, b"-bufsize": number, b"-recycle_mailaddr": any_word, b"-drives": number, b"-drivemin": size,
              b"-drivemax": size}

    def __init__(self, site):
        super().__init__(site)
        self.section = None
        self.nearest = None
        self.sets = []
        self.known = {site.single.get(b"fs", b"samfs1")}
        self.assignments = 0
        self.copies = set()
        self.pools = {}
        self.expressions = 0
        self.owners = {}

    def line(self, at, fields, line):
        if self.section:
            word, _ = self.section
            if fields == [b"end" + word]:
                self.section = None
            else:
                {b"params": self.params, b"vsnpools": self.pool, b"vsns": self.volumes}[word](fields)
        elif fields in ([b"params"], [b"vsnpools"], [b"vsns"]):
            self.section = fields[0], at
        elif fields in ([b"endparams"], [b"endvsnpools"], [b"endvsns"], [b"wait"]):
            raise Refused(UNKNOWN)
        elif is_value_line(fields):
            self.value(line)
        elif fields[0][:1].isdigit():
            self.copy(fields)
        else:
            self.assignment(fields)

    def end(self):
        if self.section:
            raise Refused(NOT_CLOSED, self.section[1])

    def value(self, line):
        directive, values = value_line(line, self.NO_EFFECT | {b"fs", b"archivemeta"})
        if directive == b"fs":
            self.nearest = values.take(name)
            self.known.add(self.nearest)
            values.end()
        elif directive == b"archivemeta":
            values.take(one_of(b"off"))
            values.end()
        else:
            values.take()

    def mention(self, word):
        need(word in self.sets or len(self.sets) < 64, TOO_MANY)
        if word not in self.sets:
            self.sets.append(word)

    def copy(self, fields):
        left = Fields(fields)
        copy = int(left.take(number))
        need(self.nearest is not None, BEFORE_SET)
        need((self.nearest, copy) not in self.copies, TWICE)
        self.mention(self.nearest)
        need(self.nearest != b"no_archive", CONFLICT)
        need(1 <= copy <= 4, OUT_OF_RANGE)
        self.copies.add((self.nearest, copy))
        given = []
        while left.left and left.left[0].startswith(b"-") and len(given) < 2:
            option = left.take(lambda word: need(word in (b"-release", b"-norelease"), UNKNOWN))
            need(option not in given, EXTRA)
            need(not given, CONFLICT)
            given.append(option)
        for _ in left.left[:2]:
            left.take(age)
        left.end()

    def assignment(self, fields):
        left = Fields(fields)
        word = left.take(set_word)
        need(self.assignments < 64, TOO_MANY)
        self.mention(word)
        need(word != b"allsets", CONFLICT)
        left.take(member_path)
        left.options(self.CRITERIA)
        self.assignments += 1
        self.nearest = word
        self.known.add(word)

    def set_copy(self, word):
        if word == b"allsets":
            return
        form = re.fullmatch(rb"(.+)\.0{0,8}[1-4]", word)
        need(form)
        if form[1] != b"allsets":
            name(form[1])
            need(form[1] in self.known, NO_SET)

    def params(self, fields):
        left = Fields(fields)
        target = left.take()
        self.set_copy(target)

        def owner(word):
            one_of(b"set", b"dir", b"user", b"group", b"fs")(word)
            if word in (b"dir", b"user", b"group"):
                need(self.owners.setdefault(target, word) == word, CONFLICT)

        left.options({**self.PARAMS, b"-reserve": owner})

    def pool(self, fields):
        left = Fields(fields)
        pool = left.take()
        kind = left.take(media)
        left.take()
        self.pools.setdefault(pool, []).extend([kind] * (1 + len(left.left)))

    def volumes(self, fields):
        left = Fields(fields)
        self.set_copy(left.take())
        self.expressions += self.count(fields[1:2], fields[2:])
        need(self.expressions <= 256, TOO_MANY)
        left.take(media)
        need(left.left, MISSING)
        while left.left:
            if left.take() == b"-pool":
                need(left.take() in self.pools, NO_POOL)

    def count(self, kind, items):
        """Counts the expressions of a vsns line, as far as its items say any: those of a pool are those with the line's media type."""
        total, items = 0, list(items)
        while items:
            if items.pop(0) != b"-pool":
                total += 1
            elif items:
                total += sum([it] == kind for it in self.pools.get(items.pop(0), []))
        return total


def read(file, text, reader):
    """Reads a text by its reader; refused, it says where."""
    try:
        for at, fields, line in lines(text):
            try:
                reader.line(at, fields, line)
            except Refused as refused:
                raise Refused(refused.fault, at) from None
        reader.end()
    except Refused as refused:
        return f"refused: {file} line {refused.line}: {refused.fault}"
    return None


def configure(texts):
    """Says what `configure` answers where no file and no job is there."""
    if any(len(it) > LONGEST for it in texts):
        return "refused: too large"
    site = Site()
    readers = (lambda: site, lambda: Archiver(site), lambda: Stager(site), lambda: Releaser(site), lambda: Recycler(site))
    for file, text, reader in zip(FILES, texts, readers):
        refused = read(file, text, reader())
        if refused:
            return refused
    return "ok 0"
