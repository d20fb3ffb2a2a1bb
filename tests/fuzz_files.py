"""Files of SQLite's making, read and changed byte by byte: what tests/fuzz opens. The same at each run of one seed."""
import functools
import random
import shutil
import sqlite3
import struct
import tempfile

SIZES = [512, 1024, 4096]
HEADER_LEN, FRAME_LEN, LOG_LEN = 100, 24, 32
LEAF_KINDS, TABLE_KINDS, KINDS = (10, 13), (5, 13), (2, 5, 10, 13)
NO_LOG, LOG, STALE_LOG, OPEN_LOG = "no log", "a log", "a log over an older one", "a log that ends in frames without a commit"


def varint(some, at):
    """The number from a place on, and the place after it."""
    value = 0
    for place in range(at, at + 8):
        value = value << 7 | some[place] & 127
        if some[place] < 128:
            return value, place + 1
    return value << 8 | some[at + 8], at + 9


def as_varint(value):
    """The shortest spelling of a number."""
    if value >> 56:
        return bytes([value >> shift & 127 | 128 for shift in range(57, 7, -7)]) + bytes([value & 255])
    some = [value & 127]
    while value := value >> 7:
        some.append(value & 127 | 128)
    return bytes(reversed(some))


def local_len(usable, kind, size):
    """How many bytes of a payload of this length lie in its cell."""
    most = usable - 35 if kind == 13 else (usable - 12) * 64 // 255 - 23
    least = (usable - 12) * 32 // 255 - 23
    fitted = least + (size - least) % (usable - 4)
    return size if size <= most else fitted if fitted <= most else least


class Cell:
    """A cell of a page: where its parts begin."""

    def __init__(self, page, kind, at):
        self.at = at
        self.child = self.size = self.rowid = self.tail = None
        if kind not in LEAF_KINDS:
            self.child, at = number(page, at), at + 4
        self.size_at = at
        if kind != 5:
            self.size, at = varint(page, at)
        self.rowid_at = at
        if kind in TABLE_KINDS:
            self.rowid, at = varint(page, at)
            self.rowid -= (self.rowid >> 63) << 64
        self.body = at
        self.local = local_len(len(page), kind, self.size) if kind != 5 else 0
        self.end = at + self.local
        if kind != 5 and self.local < self.size:
            self.tail = self.end
            self.end += 4
        if self.end > len(page):
            raise IndexError("a cell past the page's end")


def number(some, at, width=4):
    return int.from_bytes(some[at:at + width], "big")


class Page:
    """A page of a tree."""

    def __init__(self, some, start):
        self.kind = some[start]
        if self.kind not in KINDS:
            raise IndexError("no page of a tree")
        self.some, self.start = some, start
        self.front = start + (8 if self.kind in LEAF_KINDS else 12)
        self.cells = [Cell(some, self.kind, number(some, self.front + 2 * place, 2)) for place in range(number(some, start + 3, 2))]

    def children(self):
        """The numbers of the pages below."""
        return [] if self.kind in LEAF_KINDS else [*(cell.child for cell in self.cells), number(self.some, self.start + 8)]

    def rebuilt(self):
        """The page with the same cells, without free space between them."""
        at, pointers, bodies = len(self.some), b"", b""
        for cell in self.cells:
            body = bytes(self.some[cell.at:cell.end])
            body += bytes(max(0, 4 - len(body)))
            at -= len(body)
            pointers += struct.pack(">H", at)
            bodies = body + bodies
        front = self.some[:self.start] + struct.pack(">BHHHB", self.kind, 0, len(self.cells), at, 0) + self.some[self.start + 8:self.front] + pointers
        if len(front) > at:
            raise IndexError("cells over each other")
        return front + bytes(at - len(front)) + bodies


class Text(bytes):
    """The bytes of a text."""


def record(some):
    """The values of a record."""
    end, at = varint(some, 0)
    body, values = end, []
    while at < end:
        kind, at = varint(some, at)
        length = kind if kind < 5 else 6 if kind == 5 else 8 if kind < 8 else 0 if kind < 12 else (kind - 12) // 2
        part = bytes(some[body:body + length])
        body += length
        if kind in (8, 9):
            values.append(kind - 8)
        elif kind < 7:
            values.append(int.from_bytes(part, "big", signed=True) if kind else None)
        else:
            values.append(Text(part) if kind % 2 else part)
    return values


class Image:
    """A database file and its log."""

    def __init__(self, db, log):
        self.db, self.log = bytearray(db), bytearray(log)
        size = number(db, 16, 2)
        self.size = 65536 if size == 1 else size

    def copy(self):
        return Image(self.db, self.log)

    def frames(self):
        """Where each frame begins that counts and is of a commit: nothing here is damaged."""
        places, last = [], 0
        for at in range(LOG_LEN, len(self.log) - FRAME_LEN, FRAME_LEN + self.size):
            if self.log[at + 8:at + 16] != self.log[16:24]:
                break
            places.append(at)
            if number(self.log, at + 4):
                last = len(places)
        return places[:last]

    @functools.cached_property
    def newest(self):
        """Of each page in the log, where it begins there."""
        return {number(self.log, at): at + FRAME_LEN for at in self.frames()}

    @functools.cached_property
    def count(self):
        """How many pages the database has."""
        frames = self.frames()
        return number(self.log, frames[-1] + 4) if frames else number(self.db, 28)

    def place(self, page):
        """The buffer of a page, and where it begins there."""
        return (self.log, self.newest[page]) if page in self.newest else (self.db, (page - 1) * self.size)

    def bytes_of(self, page):
        """The bytes of a page of the newest commit."""
        some, at = self.place(page)
        if not 0 < page or at + self.size > len(some):
            raise IndexError("a page in neither file")
        return bytes(some[at:at + self.size])

    def page(self, page):
        return Page(self.bytes_of(page), HEADER_LEN if page == 1 else 0)

    def tree(self, root):
        """The pages under a root, with their numbers: parents first, and children in order."""
        met, rest = set(), [root]
        while rest:
            page = rest.pop()
            if page in met:
                raise IndexError("a page twice")
            met.add(page)
            node = self.page(page)
            yield page, node
            rest.extend(reversed(node.children()))

    def payload(self, node, cell):
        """The payload of a cell."""
        some, at, left = bytes(node.some[cell.body:cell.body + cell.local]), cell.tail, cell.size - cell.local
        page = number(node.some, at) if at else 0
        while left > 0:
            link = self.bytes_of(page)
            some += link[4:4 + min(left, self.size - 4)]
            left -= self.size - 4
            page = number(link, 0)
        return some

    def rows(self, root):
        """The rows of a table: rowids with values."""
        return [(cell.rowid, record(self.payload(node, cell))) for _, node in self.tree(root) if node.kind == 13 for cell in node.cells]

    def roots(self):
        return [1, *(values[3] for _, values in self.rows(1) if values[3])]

    @functools.cached_property
    def nodes(self):
        """The numbers of all trees' pages."""
        return [page for root in self.roots() for page, _ in self.tree(root)]

    def links(self):
        """The overflow pages."""
        for page in self.nodes:
            node = self.page(page)
            for cell in node.cells:
                link = number(node.some, cell.tail) if cell.tail else 0
                while link:
                    yield link
                    link = number(self.bytes_of(link), 0)

    def trunks(self):
        """The trunk pages of the freelist."""
        some, at = self.place(1)
        trunk = number(some, at + 32)
        while trunk:
            yield trunk
            trunk = number(self.bytes_of(trunk), 0)

    def seal(self):
        """Sets the sums of the log's header and of each frame whose salts are the header's."""
        log = self.log
        order = ">" if log[3] & 1 else "<"

        def summed(some, sums):
            one, other = sums
            words = struct.unpack(f"{order}{len(some) // 4}I", some)
            for place in range(0, len(words), 2):
                one = one + words[place] + other & 0xFFFFFFFF
                other = other + words[place + 1] + one & 0xFFFFFFFF
            return one, other

        sums = summed(log[:24], (0, 0))
        log[24:32] = struct.pack(">II", *sums)
        for at in range(LOG_LEN, len(log) - FRAME_LEN - self.size + 1, FRAME_LEN + self.size):
            if log[at + 8:at + 16] == log[16:24]:
                sums = summed(log[at + FRAME_LEN:at + FRAME_LEN + self.size], summed(log[at:at + 8], sums))
                log[at + 16:at + 24] = struct.pack(">II", *sums)

    def whole(self):
        """One file of all pages of the newest view."""
        return b"".join(self.bytes_of(page) for page in range(1, self.count + 1))


# The files before they are changed: each yields where what it did is committed.


def words(chance, length):
    """A text of about so many bytes; in some the case differs alone, or spaces at the end."""
    text = "".join(chance.choice(["ab", "Ab", "c", "D ", "é", "x1", "-", "7"]) for _ in range(max(1, length // 2)))
    return text + chance.choice(["", "", " "])


def rules(chance, base, usable):
    base.execute("CREATE TABLE t(a INTEGER NOT NULL DEFAULT 7 CHECK (a > -100000), b TEXT COLLATE NOCASE DEFAULT 'none', c BLOB, d, CHECK (a <> 99999 OR d IS NULL))")
    base.execute("CREATE TABLE \"other one\"(x INT DEFAULT -5, \"y z\" VARCHAR(20) NOT NULL COLLATE RTRIM)")
    base.execute("CREATE INDEX i ON t(a)")
    base.execute("CREATE UNIQUE INDEX u ON t(d)")
    base.execute("CREATE INDEX j ON t(b, a)")
    base.execute("CREATE INDEX \"k k\" ON t(b COLLATE BINARY)")
    base.execute("CREATE UNIQUE INDEX o ON \"other one\"(\"y z\", x)")
    yield
    for turn in range(60):
        base.execute("INSERT INTO t VALUES (?, ?, ?, ?)", (chance.choice([0, 1, turn, -turn * 300, 1 << 40]), chance.choice([None, words(chance, 9), words(chance, usable // 20)]),
                                                           chance.choice([None, b"", chance.randbytes(turn), 3]), chance.choice([None, turn, f"k{turn}", b"%d" % turn, -(1 << 62) + turn])))
        base.execute("INSERT INTO \"other one\" VALUES (?, ?)", (chance.choice([None, turn]), words(chance, 12) + str(turn)))
        if turn % 20 == 19:
            yield


def long(chance, base, usable):
    base.execute("CREATE TABLE t(n INTEGER, s TEXT, b BLOB)")
    base.execute("CREATE INDEX i ON t(s)")
    base.execute("CREATE INDEX j ON t(b, n)")
    base.execute("CREATE INDEX k ON t(n)")
    yield
    for turn in range(24):
        blob = chance.randbytes(chance.choice([7, usable - 35, usable - 20, 2 * usable]))
        base.execute("INSERT INTO t VALUES (?, ?, ?)", (turn % 5, words(chance, chance.choice([5, usable // 3, usable, 3 * usable])), chance.choice([None, blob])))
        if turn % 8 == 7:
            yield


def many(chance, base, usable):
    for turn in range(24):
        base.execute(f"CREATE TABLE t{turn}(a, c{turn} TEXT DEFAULT '{words(chance, usable // 20)}')")
        if turn % 2:
            base.execute(f"CREATE {'UNIQUE ' if turn % 4 == 1 else ''}INDEX i{turn} ON t{turn}(c{turn} COLLATE {chance.choice(['BINARY', 'NOCASE', 'RTRIM'])}, a)")
    yield
    for turn in range(24):
        for row in range(turn % 6):
            base.execute(f"INSERT INTO t{turn} VALUES (?, ?)", (row, words(chance, 10)))
        if turn % 8 == 7:
            yield
    base.execute("DROP TABLE t3")
    yield


def deep(chance, base, usable):
    base.execute("CREATE TABLE t(k INTEGER, v TEXT)")
    base.execute("CREATE INDEX i ON t(v COLLATE NOCASE, k)")
    yield
    for turn in range(240):
        base.execute("INSERT INTO t VALUES (?, ?)", (turn * 77 % 241, words(chance, usable // 6 if turn % 10 else 6)))
        if turn % 80 == 79:
            yield
    base.execute("CREATE INDEX j ON t(k)")
    yield


def keyed(chance, base, usable):
    base.execute("CREATE TABLE t(a TEXT, id INTEGER PRIMARY KEY, b UNIQUE, c COLLATE NOCASE, UNIQUE (c, a))")
    base.execute("CREATE TABLE u(k TEXT, v INT, id INTEGER, CHECK (id > 0), PRIMARY KEY (k, v))")
    base.execute("CREATE TABLE w(n INTEGER, x, PRIMARY KEY (n))")
    base.execute("CREATE INDEX i ON t(c, id)")
    base.execute("CREATE UNIQUE INDEX j ON w(x, n)")
    yield
    for turn in range(60):
        base.execute("INSERT INTO t VALUES (?, ?, ?, ?)", (words(chance, chance.choice([6, usable // 20])), chance.choice([None, -turn * 7, 1000 * turn + 1]), chance.choice([None, turn, f"b{turn}"]), f"{words(chance, 5)}{turn}"))
        base.execute("INSERT INTO u VALUES (?, ?, ?)", (words(chance, 6), turn, turn + 1))
        base.execute("INSERT INTO w VALUES (?, ?)", (chance.choice([None, -turn, (1 << 40) + turn]), chance.choice([turn, words(chance, 9)])))
        if turn % 20 == 19:
            yield


def triggered(chance, base, usable):
    """Tables with triggers that no INSERT and no DELETE sets off. (Without views: beside one SQLite may check a part of a file alone.)"""
    base.execute("CREATE TABLE t(a INTEGER, b TEXT)")
    base.execute("CREATE TABLE log(x, y TEXT)")
    yield
    base.execute("CREATE TRIGGER g AFTER UPDATE ON t WHEN NEW.a > OLD.a BEGIN INSERT INTO log VALUES (NEW.a, OLD.b); DELETE FROM log WHERE x = 0; END")
    base.execute("CREATE TRIGGER \"h h\" BEFORE UPDATE OF b, a ON t BEGIN SELECT RAISE(ABORT, 'no') WHERE NEW.b = 'none'; END")
    base.execute("CREATE TRIGGER k AFTER UPDATE OF y ON log BEGIN UPDATE log SET x = NULL WHERE y = NEW.y; END")
    yield
    for turn in range(3):
        for place in range(usable // 60):
            base.execute("INSERT INTO t VALUES (?, ?)", (turn * place, words(chance, 20)))
            base.execute("INSERT INTO log VALUES (?, ?)", (chance.choice([None, place]), words(chance, 9)))
        yield


def made(chance, fill, usable, kind):
    """A file of these rows, of which some are taken out again, and of a table that is dropped. With a log, what came last is there alone."""
    folder = tempfile.mkdtemp()
    path = f"{folder}/file.db"
    base = sqlite3.connect(path, isolation_level=None)
    for line in [f"page_size = {usable}", "journal_mode = wal", "wal_autocheckpoint = 0", "synchronous = off"]:
        base.execute("PRAGMA " + line)
    base.execute("CREATE TABLE gone(a, b)")
    base.execute("CREATE INDEX gone_i ON gone(b)")
    for turn in range(12):
        base.execute("INSERT INTO gone VALUES (?, ?)", (turn, "x" * (usable // 3)))
    steps = fill(chance, base, usable)
    next(steps)
    next(steps)
    base.execute("DROP TABLE gone")
    if kind != NO_LOG:
        base.execute("PRAGMA wal_checkpoint(TRUNCATE)")
    while True:
        base.execute("BEGIN")
        if next(steps, steps) is steps:
            break
        for name, in base.execute("SELECT name FROM sqlite_schema WHERE type = 'table'").fetchall():
            base.execute(f"DELETE FROM \"{name}\" WHERE rowid % {chance.randint(3, 9)} = 0")
        base.execute("COMMIT")
        if kind == STALE_LOG:
            base.execute("PRAGMA wal_checkpoint(RESTART)")
            kind = LOG
    base.execute("COMMIT")
    if kind == NO_LOG:
        base.execute("PRAGMA wal_checkpoint(TRUNCATE)")
    image = Image(open(path, "rb").read(), open(path + "-wal", "rb").read())
    base.close()
    shutil.rmtree(folder)
    return fixed(image, kind)


def fixed(image, kind):
    """The same with salts that are the same at each run."""
    log = image.log
    if log:
        salts = bytes(log[16:24])
        for at in [8, *range(LOG_LEN, len(log) - FRAME_LEN, FRAME_LEN + image.size)]:
            is_new = log[at + 8:at + 16] == salts
            log[at + 8:at + 16] = bytes.fromhex("5000000160000001" if is_new else "5000000060000000")
            if not is_new:
                log[at + 16:at + 24] = bytes(8)
        if kind == OPEN_LOG:
            log += struct.pack(">II", 2, 0) + log[16:24] + bytes(8) + image.bytes_of(3)
        image.seal()
    return Image(image.db, log)


def bases(seed):
    """Each file before it is changed, with its name."""
    for usable in SIZES:
        for fill in (rules, long, many, deep, keyed, triggered):
            for kind in (NO_LOG, LOG, chance_of(seed, usable, fill.__name__).choice([STALE_LOG, OPEN_LOG])):
                yield f"{fill.__name__}, pages of {usable}, {kind}", made(chance_of(seed, usable, fill.__name__, kind), fill, usable, kind)


def chance_of(*parts):
    return random.Random("/".join(map(str, parts)))


# The changes, each in one place. Each answers what it did.


def put(some, at, new):
    """Puts bytes at a place, and says so."""
    old = bytes(some[at:at + len(new)])
    some[at:at + len(new)] = new
    return f"{old.hex()} -> {bytes(new).hex()} at {at}"


def other(chance, old, width):
    """Another number: near the old one, at an end, or any."""
    most = (1 << 8 * width) - 1
    return chance.choice([old + chance.choice([-1, 1]), old + chance.randint(-20, 20), 0, 1, most, most >> 1, old ^ 1 << chance.randrange(8 * width),
                          chance.randint(0, most), chance.randint(0, 40), old << 8, old | 1 << 8 * width - 1]) & most


def put_number(chance, some, at, width):
    return put(some, at, other(chance, number(some, at, width), width).to_bytes(width, "big"))


def some_file(chance, image):
    """One of the two files, the longer one more often."""
    return chance.choices(["db", "log"], [len(image.db), len(image.log)])[0]


def one_byte(chance, image):
    name = some_file(chance, image)
    some = getattr(image, name)
    return f"{name}: " + put(some, chance.randrange(len(some)), bytes([chance.randrange(256)]))


def one_bit(chance, image):
    name = some_file(chance, image)
    some = getattr(image, name)
    at = chance.randrange(len(some))
    return f"{name}: " + put(some, at, bytes([some[at] ^ 1 << chance.randrange(8)]))


def two_swapped(chance, image):
    name = some_file(chance, image)
    some = getattr(image, name)
    at = chance.randrange(len(some))
    second = min(at + chance.choice([1, 1, 2, chance.randint(1, 600)]), len(some) - 1)
    some[at], some[second] = some[second], some[at]
    return f"{name}: the bytes at {at} and {second} swapped"


def zeros(chance, image):
    name = some_file(chance, image)
    some = getattr(image, name)
    length = chance.choice([1, 2, 4, 8, 40, image.size])
    at = chance.randrange(len(some))
    if length == image.size and name == "db":
        at -= at % length
    return f"{name}: {length} zeros: " + put(some, at, bytes(min(length, len(some) - at)))[-12:]


def page_copied(chance, image):
    source, target = (chance.randint(1, image.count) for _ in range(2))
    new = image.bytes_of(source)
    some, at = image.place(target)
    some[at:at + len(new)] = new
    if some is image.log:
        image.seal()
    return f"page {source} over page {target}"


def cut(chance, image):
    name = some_file(chance, image)
    some = getattr(image, name)
    length = chance.choice([0, chance.randrange(len(some)), len(some) - chance.randrange(40), chance.randrange(len(some)) // image.size * image.size])
    del some[length:]
    return f"{name}: cut to {length}"


def lengthened(chance, image):
    name = some_file(chance, image)
    some = getattr(image, name)
    length = chance.choice([1, image.size, image.size + FRAME_LEN, 5 * image.size, chance.randrange(2000)])
    some += chance.choice([bytes(length), chance.randbytes(length), bytes(some[-length:])])
    return f"{name}: {length} bytes more"


def header_field(chance, image):
    at, width = chance.choice([(0, 4), (12, 4), (16, 2), (18, 1), (19, 1), (20, 1), (21, 1), (22, 1), (23, 1), (24, 4), (28, 4), (32, 4), (36, 4), (40, 4), (44, 4), (48, 4),
                               (52, 4), (56, 4), (60, 4), (64, 4), (68, 4), (72, 4), (88, 4), (92, 4), (96, 4)])
    some, start = image.place(1)
    what = put_number(chance, some, start + at, width)
    if some is image.log:
        image.seal()
    return f"header's field {at}: {what}"


def in_tree(change):
    """A change of a page of a tree, of the newest commit: the log's sums are set anew."""

    @functools.wraps(change)
    def changed(chance, image):
        for _ in range(60):
            page = chance.choice(image.nodes)
            node = image.page(page)
            some, at = image.place(page)
            if what := change(chance, image, node, some, at):
                if some is image.log:
                    image.seal()
                return f"page {page} of kind {node.kind}: {what}"
        return one_byte(chance, image)

    return changed


@in_tree
def page_header(chance, image, node, some, at):
    field, width = chance.choice([(0, 1), (1, 2), (3, 2), (5, 2), (7, 1), *([] if node.kind in LEAF_KINDS else [(8, 4)] * 2)])
    if field == 0 and chance.random() < 0.5:
        return put(some, at + node.start, bytes([chance.choice(KINDS)]))
    if field == 8 and chance.random() < 0.5:
        return "last child: " + put(some, at + node.start + 8, struct.pack(">I", chance.choice(image.nodes)))
    return f"header's field {field}: " + put_number(chance, some, at + node.start + field, width)


@in_tree
def free_space(chance, image, node, some, at):
    """A freeblock's field, where there is one; else a field that counts free space."""
    block = number(node.some, node.start + 1, 2)
    if block and chance.random() < 0.7:
        return "freeblock: " + put_number(chance, some, at + block + chance.choice([0, 2]), 2)
    field, width = chance.choice([(1, 2), (5, 2), (7, 1)])
    return f"header's field {field}: " + put_number(chance, some, at + node.start + field, width)


@in_tree
def cell_pointer(chance, image, node, some, at):
    if not node.cells:
        return None
    place = at + node.front + 2 * chance.randrange(len(node.cells))
    choice = chance.random()
    if choice < 0.4:
        return "pointer: " + put_number(chance, some, place, 2)
    second = at + node.front + 2 * chance.randrange(len(node.cells))
    one, two = bytes(some[place:place + 2]), bytes(some[second:second + 2])
    if choice < 0.7:
        some[second:second + 2] = one
    return f"pointer {'swapped' if choice < 0.7 else 'copied'}: " + put(some, place, two)


@in_tree
def cell_number(chance, image, node, some, at):
    """A varint of a cell: the length or the rowid, in as many bytes or in more. (What stands after it isn't moved.)"""
    if not node.cells:
        return None
    cell = chance.choice(node.cells)
    place = chance.choice([cell.size_at if node.kind != 5 else cell.rowid_at, cell.rowid_at if node.kind in TABLE_KINDS else cell.size_at])
    value, _ = varint(node.some, place)
    value = chance.choice([value + 1, value - 1, value + chance.randint(-300, 300), 0, value << 7, 1 << chance.randrange(64), value ^ 1 << chance.randrange(10)]) & (1 << 64) - 1
    return "varint: " + put(some, at + place, as_varint(value)[:image.size - place])


@in_tree
def record_type(chance, image, node, some, at):
    """The length of a record's header, or a serial type."""
    cells = [cell for cell in node.cells if cell.size]
    if not cells:
        return None
    cell = chance.choice(cells)
    end, place = varint(node.some, cell.body)
    places = [cell.body]
    while place < min(cell.body + end, cell.body + cell.local):
        places.append(place)
        place = varint(node.some, place)[1]
    place = chance.choice(places)
    kind = varint(node.some, place)[0]
    value = chance.choice([kind + 1, kind - 1, kind + 2, max(0, kind - 2), chance.randrange(14), 7, 10, 11, kind ^ 1, chance.randrange(200)]) & 0xFFFFFF
    return f"type {kind}: " + put(some, at + place, as_varint(value))


@in_tree
def overflow(chance, image, node, some, at):
    cells = [cell for cell in node.cells if cell.tail]
    return "overflow: " + put_number(chance, some, at + chance.choice(cells).tail, 4) if cells else None


@in_tree
def child(chance, image, node, some, at):
    if node.kind in LEAF_KINDS:
        return None
    place = at + (chance.choice(node.cells).at if node.cells else node.start + 8)
    return "child: " + (put_number(chance, some, place, 4) if chance.random() < 0.5 else put(some, place, struct.pack(">I", chance.randint(1, image.count))))


def link(chance, image):
    """A number on an overflow page, or on a trunk page of the freelist."""
    pages = [(page, [0]) for page in image.links()]
    for page in image.trunks():
        pages += [(page, [0, 4, *range(8, 8 + 4 * number(image.bytes_of(page), 4), 4)])] * 8
    if not pages:
        return header_field(chance, image)
    page, fields = chance.choice(pages)
    some, at = image.place(page)
    what = put_number(chance, some, at + chance.choice(fields), 4)
    if some is image.log:
        image.seal()
    return f"page {page} of a chain: {what}"


def schema_byte(chance, image):
    """A byte in a row of the schema table: of its text mostly."""
    leaves = [(page, node) for page, node in image.tree(1) if node.kind == 13 and node.cells]
    page, node = chance.choice(leaves)
    cell = chance.choice(node.cells)
    some, at = image.place(page)
    new = chance.choice([chance.randrange(256), *b" (),;'\"x0-"])
    what = put(some, at + cell.body + chance.randrange(cell.local), bytes([new]))
    if some is image.log:
        image.seal()
    return f"schema row {cell.rowid}: {what}"


def texts(sql, another):
    """What may stand in the place of a CREATE's text, or of that which an automatic index doesn't have."""
    if sql is None:
        return [another, "", "CREATE UNIQUE INDEX sqlite_autoindex_t_1 ON t(b)"]
    return [another, None, sql[:-1], sql + " ", sql + ";", sql + " -- x", sql + " WITHOUT ROWID", sql + " STRICT", sql.upper()] + [sql.replace(old, new) for old, new in [
        ("TABLE", "table"), (")", ", z)"), ("COLLATE NOCASE", "COLLATE RTRIM"), ("COLLATE BINARY", ""), (" ON ", " on \n"), ("TEXT", "INTEGER"), ("INTEGER", ""),
        ("INTEGER", "INTEGER PRIMARY KEY"), ("UNIQUE ", ""), ("CREATE INDEX", "CREATE UNIQUE INDEX"), ("NULL", "NUL"), (", ", ", , "), ("INTEGER", "REAL"),
        ("CHECK (", "CHECK (1 AND "), ("a > -100000", "a > 20"), ("INDEX", "INDEX IF NOT EXISTS"), ("(", "(a PRIMARY KEY, "), (")", " DESC)"), ("DEFAULT", "NOT NULL DEFAULT"),
        (" DEFAULT 'none'", " NOT NULL"), ("c BLOB", "c BLOB NOT NULL"), (", d", ", d TEXT"), ("n INTEGER", "n INTEGER UNIQUE"), ("s TEXT", "s INT DEFAULT 1"), ("k INTEGER", "k TEXT"),
        ("v TEXT", "v TEXT COLLATE RTRIM"), ("v TEXT", "v CHECK (v > 'c')"), ("(a)", "(a, d)"), ("(k)", "(k COLLATE NOCASE)"), ("TABLE t", "TABLE T"),
        (" ", "\0"), (", ", ", \0"), ("'none'", "'no\0ne'"), (", ", ",\ufeff"), ("(", "(\ufeff"), (" t", " \ufefft"), (" ", "\v"), (" ", "\u00a0"), ("'none'", "/* */ 'none'"), (")", "$)")]]


def schema_row(chance, image):
    """A row of the schema table, by SQLite. The log is copied then."""
    folder = tempfile.mkdtemp()
    path = f"{folder}/file.db"
    with open(path, "wb") as it:
        it.write(image.whole())
    base = sqlite3.connect(path, isolation_level=None)
    rows = base.execute("SELECT rowid, type, name, tbl_name, rootpage, sql FROM sqlite_schema").fetchall()
    rowid, kind, name, table, root, sql = chance.choice(rows)
    another = chance.choice(rows)
    column, now, news = chance.choice([
        ("type", kind, ["table", "index", "view", "trigger", "tables", "TABLE", None]), ("name", name, [another[2], name.upper(), "x", "sqlite_x", "", "sqlite_autoindex_t_1"]),
        ("tbl_name", table, [another[3], table.upper(), "x"]), ("rootpage", root, [another[4], root + 1, 0, 1, -root, "2", image.count + 1, 1 << 32 | root]),
        *[("sql", sql, texts(sql, another[5]))] * 8, ("rowid", rowid, [rowid + 1000]),
    ])
    value = chance.choice([new for new in news if new != now])
    base.execute("PRAGMA writable_schema = ON")
    base.execute(f"UPDATE sqlite_schema SET {column} = ? WHERE rowid = ?", (value, rowid))
    base.execute("PRAGMA wal_checkpoint(TRUNCATE)")
    base.close()
    image.db = bytearray(open(path, "rb").read())
    image.log = bytearray()
    shutil.rmtree(folder)
    return f"schema row {rowid}: {column} = {value!r}"


def log_field(chance, image):
    """A field of the log's header or of a frame's; the sums are set anew or not."""
    frames = range(LOG_LEN, len(image.log) - FRAME_LEN, FRAME_LEN + image.size)
    if not frames:
        image.log[:] = chance.choice([bytes.fromhex("377f0682002de21800000200000000000000000100000002"), chance.randbytes(24)]) + bytes(8)
        image.log[8:12] = struct.pack(">I", image.size)
        image.seal()
        return "a log without frames"
    if chance.random() < 0.3:
        what = "log's header: " + put_number(chance, image.log, chance.choice([0, 4, 8, 12, 16, 20, 24, 28]), 4)
    else:
        at = chance.choice(frames)
        field = chance.choice([0, 0, 4, 4, 4, 8, 12, 16, 20])
        if field == 4 and chance.random() < 0.6:
            what = put(image.log, at + 4, struct.pack(">I", 0 if number(image.log, at + 4) else image.count))
        else:
            what = put_number(chance, image.log, at + field, 4)
        what = f"frame at {at}, field {field}: {what}"
    if chance.random() < 0.6:
        image.seal()
        what += ", sealed"
    return what


CHANGES = [one_byte, one_byte, one_bit, two_swapped, zeros, page_copied, cut, lengthened, header_field, page_header, free_space, cell_pointer, cell_pointer, cell_number, cell_number,
           record_type, record_type, overflow, child, link, schema_byte, schema_row, log_field, log_field]
