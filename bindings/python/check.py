"""The calls of kinolavust.py, with the rows that the sqlite3 module gives for the same statements. Ends with 'Python: N passed, N failed'."""
import collections
import enum
import gc
import os
import resource
import sqlite3
import sys
import tempfile

import kinolavust

passed = failed = 0


def same(what, wanted, got):
    global passed, failed
    passed += wanted == got
    failed += wanted != got
    if wanted != got:
        print(f"Python: {what}: wanted {wanted}, got {got}")


def raised(call):
    """The exception's class, number and text."""
    try:
        call()
    except kinolavust.Error as error:
        return type(error).__name__, error.number, str(error)
    return None


VALUES = [(1, "it's ? -- not"), (-(1 << 63), b"\0\xff"), (None, "ü\0x"), ((1 << 63) - 1, ""), (True, b"")]
STATEMENTS = [
    ("CREATE TABLE t(id INTEGER, name)", ()),
    *[("INSERT INTO t VALUES (?, ?)", it) for it in VALUES],
    ("SELECT name, id FROM t WHERE name = ? OR id = ? /* ? */ -- ?\n ORDER BY id", ("it's ? -- not", -(1 << 63))),
    ("SELECT '?', \"id\" FROM t WHERE id > ? ORDER BY id", (0,)),
    ("UPDATE t SET name = ? WHERE id IS NULL", ("now",)),
    ("SELECT count(*), max(id) FROM t", ()),
    ("INSERT INTO t VALUES (:id, :name)", {"id": 5, "name": "'\0\"", "other": 1}),
    ("INSERT INTO t VALUES (?2, ?1)", (bytes(range(256)) * 160, 6)),
    ("INSERT INTO t VALUES (?, ?)", (7, b"\1" * 900_000)),
    ("INSERT INTO t VALUES (?, ?)", [8, bytearray(b"list")]),
    ("SELECT :a, ?, :a, ?5, @b FROM t WHERE id = ?2", (1, 5, 3, 4, "five", "six")),
    ("SELECT id + :by FROM t WHERE id = :id", {"by": -1, "id": 5}),
    ("DELETE FROM t WHERE name = :name", ("now",)),
    ("SELECT id, name FROM t ORDER BY id", ()),
]


def rows(folder):
    """The same statements by both modules, on files of their own."""
    ours, theirs = kinolavust.connect(f"{folder}/ours.db"), sqlite3.connect(f"{folder}/theirs.db")
    for sql, parameters in STATEMENTS:
        same(sql, theirs.execute(sql, parameters).fetchall(), ours.execute(sql, parameters).fetchall())
    ours.close()
    read = sqlite3.connect(f"{folder}/ours.db")
    same("sqlite3 finds it sound", [("ok",)], read.execute("PRAGMA integrity_check").fetchall())
    same("sqlite3 reads it", theirs.execute("SELECT * FROM t").fetchall(), read.execute("SELECT * FROM t").fetchall())
    read.close()


def parameters(folder):
    """Which marks stand for parameters, and what is wrong with values: as the sqlite3 module has it."""
    ours, theirs = kinolavust.connect(f"{folder}/ours.db"), sqlite3.connect(":memory:")

    def outcome(db, sql, values):
        try:
            return db.execute(sql, values).fetchall()
        except Exception as error:
            return type(error).__name__

    for sql, values in [
        ("SELECT '?''?', ? /* ? */ -- ?", (7,)),
        ("SELECT '?', ':a' AS \"?\"", ()),
        ("SELECT ?", ()),
        ("SELECT ?, ?", (1,)),
        ("SELECT ?, ?", (1, 2, 3)),
        ("SELECT 1", (1,)),
        ("SELECT ?3", (1, 2, 3)),
        ("SELECT :a, :b", {"a": 1}),
        ("SELECT :a, :b", {"a": 1, "b": 2}),
        ("SELECT :a, ?", {"a": 1}),
        ("SELECT :a", ()),
        ("SELECT 1", {}),
        ("BEGIN", (1,)),
        ("SELECT ?", (1 << 62,)),
    ]:
        same(f"{sql} {values}", outcome(theirs, sql, values), outcome(ours, sql, values))
    same("a name twice", [(3, 3)], ours.execute("SELECT :a, :a", collections.defaultdict(lambda: 3)).fetchall())
    ours.close()


def statements(folder):
    """Prepared statements: which are kept, and that they are those of the moment."""
    db = kinolavust.connect(f"{folder}/statements.db", cached_statements=3)
    kept = lambda: list(db._file.statements)  # noqa: E731
    for number in (1, 2, 3, 1, 4):
        db.execute(f"SELECT {number}")
    same("the least used makes room", ["SELECT 3", "SELECT 1", "SELECT 4"], kept())
    db.execute("CREATE TABLE t(a INTEGER)")
    same("what can't be prepared isn't kept", ["SELECT 3", "SELECT 1", "SELECT 4"], kept())
    for _ in range(2):
        db.execute("INSERT INTO t VALUES (?)", (1,))
        same("another connection", [(1,)], db.other(2).execute("SELECT a FROM t").fetchall())
        db.execute("DROP TABLE t")
        same("a table that is gone", ("ProgrammingError", 8, "no such table: t"), raised(lambda: db.execute("SELECT a FROM t")))
        db.execute("CREATE TABLE t(a INTEGER)")

    def values():
        """Statements in the midst of executemany, which make room for themselves."""
        for number in range(10):
            db.execute(f"SELECT {number}")
            yield (number,)

    db.executemany("INSERT INTO t VALUES (?)", values())
    same("among other statements", [(10, 45)], db.execute("SELECT count(*), sum(a) FROM t").fetchall())
    cursor, again = db.cursor(), raised(lambda: db.executemany("INSERT INTO t VALUES (?)", [(1,), (1, 2)]))
    same("a wrong row of executemany", "ProgrammingError", (again or ("",))[0])
    db.close()
    same("closed", "ProgrammingError", (raised(lambda: cursor.execute("SELECT 1")) or ("",))[0])
    none = kinolavust.connect(f"{folder}/statements.db", cached_statements=0)
    same("none are kept", [(11,)], none.execute("SELECT count(*) FROM t WHERE a >= ?", (0,)).fetchall())
    del none
    kinolavust.connect(f"{folder}/statements.db").close()


def cursors(folder):
    with kinolavust.connect(f"{folder}/cursors.db") as db:
        db.execute("CREATE TABLE t(a INTEGER)")
        db.executemany("INSERT INTO t VALUES (?)", [(it,) for it in range(5)])
        cursor = db.cursor()
        same("execute gives the cursor", True, cursor.execute("SELECT a FROM t") is cursor)
        same("fetchone", (0,), cursor.fetchone())
        same("fetchmany", [(1,), (2,)], cursor.fetchmany(2))
        same("iteration", [(3,), (4,)], list(cursor))
        same("past the end", None, cursor.fetchone())
        same("fetchmany of one", [(0,)], db.execute("SELECT a FROM t").fetchmany())
        cursor.execute("SELECT a FROM t").arraysize = 2
        same("fetchmany of arraysize", [(0,), (1,)], cursor.fetchmany())


def refusals(folder):
    """Numbers and messages as docs/ERRORS.md has them, in the classes of PEP 249."""
    with kinolavust.connect(f"{folder}/refusals.db") as db:
        db.execute("CREATE TABLE t(a INTEGER NOT NULL)")
        run = lambda sql, *parameters: raised(lambda: db.execute(sql, parameters))  # noqa: E731
        same("E8", ("ProgrammingError", 8, "no such column: x"), run("SELECT x FROM t"))
        same("E7", ("ProgrammingError", 7, "syntax error at byte 7"), run("SELECT FROM t"))
        same("E9", ("ProgrammingError", 9, "there is a table, an index, a view or a trigger of this name: t"), run("CREATE TABLE t(a)"))
        same("E14", ("OperationalError", 14, "no transaction is active"), run("COMMIT"))
        same("E17", ("IntegrityError", 17, "NOT NULL constraint failed"), run("INSERT INTO t VALUES (?)", None))
        same("E21", ("DataError", 21), (run("SELECT 1.5") or ())[:2])
        same("E4", ("NotSupportedError", 4), (run("ALTER TABLE t RENAME TO u") or ())[:2])
        same("E25", ("DataError", 25), (run("INSERT INTO t VALUES (?)", b"x" * 1_000_001) or ())[:2])
        same("E7 past parameters", ("ProgrammingError", 7, "syntax error at byte 21"), run("SELECT ?, :a, ?  FROM", 1))
        same("E4 with a value", ("NotSupportedError", 4), (run("REPLACE INTO t VALUES (?)", 1) or ())[:2])
        same("too few", "ProgrammingError", (run("SELECT ?, ?", 1) or ("",))[0])
        same("too many", "ProgrammingError", (run("SELECT 1", 1) or ("",))[0])
        same("a float", "InterfaceError", (run("SELECT ?", 1.5) or ("",))[0])
        same("a large integer", "DataError", (run("SELECT ?", 1 << 63) or ("",))[0])
        same("a second open", ("OperationalError", 12), (raised(lambda: kinolavust.connect(f"{folder}/refusals.db")) or ())[:2])
    same("a closed database", "ProgrammingError", (run("SELECT 1") or ("",))[0])
    same("a folder", ("OperationalError", 2), (raised(lambda: kinolavust.connect(folder)) or ())[:2])
    with open(f"{folder}/text", "w") as it:
        it.write("no database" * 20)
    same("another file", ("DatabaseError", 3, "the file isn't a database"), raised(lambda: kinolavust.connect(f"{folder}/text")))
    same("each number has a class", set(range(1, 31)), set(kinolavust.CLASSES))


def limits(folder):
    """A parameter of LIMIT or OFFSET, which the engine takes as a literal."""
    with kinolavust.connect(f"{folder}/limits.db") as db:
        db.execute("CREATE TABLE t(a INTEGER, b TEXT)")
        db.executemany("INSERT INTO t VALUES (?, ?)", [(it, f"? {it % 2}") for it in range(20)])
        rows = lambda sql, *values: [a for (a,) in db.execute(sql, values)]  # noqa: E731
        same("LIMIT ?", [0, 1, 2], rows("SELECT a FROM t ORDER BY a LIMIT ?", 3))
        same("WHERE ?, LIMIT ? OFFSET ?", [5, 7], rows("SELECT a FROM t WHERE b = '? 1' AND a > ? -- why?\n ORDER BY a limit ? offset ?", 2, 2, 1))
        same("another value", [9], rows("SELECT a FROM t WHERE b = '? 1' AND a > ? -- why?\n ORDER BY a limit ? offset ?", 2, 1, 3))
        same("a text for LIMIT", "InterfaceError", (raised(lambda: rows("SELECT a FROM t LIMIT ?", "x")) or ("",))[0])
        same("too few values", "ProgrammingError", (raised(lambda: rows("SELECT a FROM t WHERE a = ? LIMIT ?", 1)) or ("",))[0])
        same("another refusal stays", ("ProgrammingError", 7), (raised(lambda: rows("SELEC a FROM t LIMIT 1")) or ())[:2])


class Whole(enum.IntEnum):
    SEVEN = 7


class Text(str):
    pass


class Sequence:
    """Values that are neither a list nor a tuple."""

    def __init__(self, *values):
        self.values = values

    def __len__(self):
        return len(self.values)

    def __getitem__(self, place):
        return self.values[place]


def values(folder):
    """Values of each type, alone and in each kind of container: as the sqlite3 module has them."""
    ours, theirs = kinolavust.connect(f"{folder}/values.db"), sqlite3.connect(":memory:")
    for value in (None, 0, -1, (1 << 63) - 1, -(1 << 63), True, False, Whole.SEVEN, Text("text"), "", "ü\0€\U0001f600", b"", b"\0",
                  bytearray(b"bytes"), memoryview(b"a view")):
        for sql, given in [("SELECT ?, 1", (value,)), ("SELECT ?, 1", [value]), ("SELECT :a, 1", {"a": value}), ("SELECT ?, 1", Sequence(value))]:
            wanted, got = (db.execute(sql, given).fetchall() for db in (theirs, ours))
            same(f"{value!r} in a {type(given).__name__}", wanted, got)
            same("of the same type", [type(it) for it in wanted[0]], [type(it) for it in got[0]])
    same("a view of each second byte", [(b"ace",)], ours.execute("SELECT ?", (memoryview(b"abcdef")[::2],)).fetchall())
    same("values of a generator", [(1, 2)], ours.execute("SELECT ?, ?", (it for it in (1, 2))).fetchall())
    ours.close()


def raises(call):
    """The name of any exception's class."""
    try:
        call()
    except BaseException as error:
        return type(error).__name__
    return None


class Failing(dict):
    def __getitem__(self, name):
        raise ZeroDivisionError


def exceptions(folder):
    """Exceptions of Python's own, and what a caller's code does in the midst of a call."""
    db = kinolavust.connect(f"{folder}/exceptions.db")
    db.execute("CREATE TABLE t(a)")
    run = lambda *given: raises(lambda: db.execute(*given))  # noqa: E731
    same("half a character", "UnicodeEncodeError", run("SELECT ?", ("\ud800",)))
    same("half a character of a statement", "UnicodeEncodeError", run("SELECT '\ud800'"))
    same("a statement that is no text", "TypeError", run(b"SELECT 1"))
    same("values that are none", "TypeError", run("SELECT ?", 7))
    same("a connection that is no number", "TypeError", raises(lambda: db.other("1")))
    same("a connection that isn't there", ("ProgrammingError", 11), (raised(lambda: db.other(17).execute("SELECT 1")) or ())[:2])
    same("a mapping that fails", "ZeroDivisionError", run("SELECT :a", Failing()))
    same("many that are none", "TypeError", raises(lambda: db.executemany("INSERT INTO t VALUES (?)", 7)))
    same("a zero byte in a name", "ValueError", raises(lambda: kinolavust.connect(f"{folder}/a\0b")))
    same("a type and its text", ("InterfaceError", 0, "a parameter of a type that isn't supported: float"), raised(lambda: db.execute("SELECT ?", (1.5,))))
    same("a range and its text", ("DataError", 0, f"an integer outside 64 bits: {1 << 63}"), raised(lambda: db.execute("SELECT ?", (1 << 63,))))
    same("a count and its text", ("ProgrammingError", 0, "the statement has 2 parameters, and 1 were given"), raised(lambda: db.execute("SELECT ?, ?", (1,))))

    def then(error):
        yield (1,)
        raise error

    for error in (ZeroDivisionError, KeyboardInterrupt):
        same("a generator that fails", error.__name__, raises(lambda: db.executemany("INSERT INTO t VALUES (?)", then(error))))

    def within():
        for number in (2, 3):
            db.execute("INSERT INTO t VALUES (?)", (number * 10,))
            yield (number,)

    def another():
        db.execute("SELECT 8")
        yield 7

    for _ in range(2):
        same("another statement while values are made", [(7,)], db.execute("SELECT ?", another()).fetchall())
    db.executemany("INSERT INTO t VALUES (?)", within())
    same("the statement within itself", [1, 1, 20, 2, 30, 3], [a for (a,) in db.execute("SELECT a FROM t")])
    same("rows of the last of many", [(3,)], db.executemany("SELECT ?", [(1,), (2,), (3,)]).fetchall())
    same("many that are no values", [(1,)], db.executemany("SELECT 1", [(), ()]).fetchall())
    same("many of none", [], db.executemany("SELECT ?", []).fetchall())
    same("many of LIMIT", [(1,), (1,)], db.executemany("SELECT a FROM t LIMIT ?", [(1,), (2,)]).fetchall())
    same("many of a statement that isn't prepared", 14, (raised(lambda: db.executemany("COMMIT", [(), ()])) or (0, 0))[1])

    def closes():
        yield (4,)
        db.close()
        yield (5,)

    cursor = db.execute("SELECT a FROM t")
    same("closed in the midst", ("ProgrammingError", 0, "the database is closed"), raised(lambda: db.executemany("INSERT INTO t VALUES (?)", closes())))
    same("closed", ("ProgrammingError", 0, "the database is closed"), raised(lambda: db.execute("SELECT 1")))
    same("rows stay", 6, len(cursor.fetchall()))
    db.close()
    with kinolavust.connect(f"{folder}/exceptions.db") as db:
        same("what was inserted before", (7,), db.execute("SELECT count(*) FROM t").fetchone())


def memory(folder):
    """The same calls again and again take no more memory, and keep no reference to what they were given."""
    db = kinolavust.connect(f"{folder}/memory.db", cached_statements=2)
    db.execute("CREATE TABLE t(a INTEGER, b)")
    text, data = "text" * 20000, b"bytes" * 20000
    db.execute("INSERT INTO t VALUES (1, ?)", (data,))
    name, number, given = "n" * 100, 1 << 40, [1, 2]

    def calls():
        db.execute("SELECT a, b, ?, ?, NULL FROM t", (text, data)).fetchall()
        db.execute("SELECT :a, :b", {"a": name, "b": number}).fetchone()
        db.execute("SELECT ?, ?", given)
        db.executemany("SELECT ?", [(bytearray(data),), (memoryview(data),), (Text(name),)])
        for sql, values in [("SELECT ?", (1.5,)), ("SELECT ?", (1 << 64,)), ("SELECT ?, ?", (text,)), ("SELECT x", ()), ("INSERT INTO t VALUES (?, ?)", (1, b"x" * 1_000_001)),
                            ("SELECT ?", ("\ud800",)), ("SELECT :a, ?", {"a": 1}), ("SELECT :a", {}), ("SELECT ?", 7), ("COMMIT", ())]:
            raises(lambda: db.execute(sql, values))
        raises(lambda: db.executemany("SELECT ?", [(data,), (text, text)]))
        raises(lambda: kinolavust.connect(folder))

    def size():
        gc.collect()
        return [sys.getallocatedblocks(), *map(sys.getrefcount, (text, data, name, number, given, None, db, db._file))]

    sizes = []
    for times in 600, 100, 100, 100, 100:  # what Python itself keeps for later may grow in one of these, and not in each
        for _ in range(times):
            calls()
        sizes.append(size())
    most = resource.getrusage(resource.RUSAGE_SELF).ru_maxrss
    same("blocks and references", [], [it for it in zip(*sizes) if min(abs(b - a) for a, b in zip(it, it[1:])) >= 50])
    for _ in range(500):
        db.execute("SELECT a, b, ?, ?, NULL FROM t", (text, data)).fetchall()
        raises(lambda: db.execute("SELECT ?, x", (text,)))
    same("memory beside Python's", True, resource.getrusage(resource.RUSAGE_SELF).ru_maxrss - most < 20000)
    db.close()


def transactions(folder):
    db = kinolavust.connect(f"{folder}/transactions.db")
    db.execute("CREATE TABLE t(a INTEGER)")
    other = db.other(2)
    count = lambda it: it.execute("SELECT count(*) FROM t").fetchone()[0]  # noqa: E731
    db.execute("BEGIN")
    db.execute("INSERT INTO t VALUES (1)")
    same("its own row, and another's view", (1, 0), (count(db), count(other)))
    same("one writes at a time", ("OperationalError", 12), (raised(lambda: other.execute("DELETE FROM t")) or ())[:2])
    db.rollback()
    same("rolled back", 0, count(db))
    db.close()
    try:
        with kinolavust.connect(f"{folder}/transactions.db") as db:
            db.execute("BEGIN")
            db.execute("INSERT INTO t VALUES (2)")
            raise KeyError
    except KeyError:
        pass
    with kinolavust.connect(f"{folder}/transactions.db") as db:
        same("an exception rolls back", 0, count(db))
        db.execute("BEGIN")
        db.execute("INSERT INTO t VALUES (3)")
    with kinolavust.connect(f"{folder}/transactions.db") as db:
        same("the end of a context commits", 1, count(db))


with tempfile.TemporaryDirectory() as room:
    for part in (rows, parameters, statements, cursors, limits, refusals, values, exceptions, memory, transactions):
        os.mkdir(f"{room}/{part.__name__}")
        part(f"{room}/{part.__name__}")
print(f"Python: {passed} passed, {failed} failed")
sys.exit(failed > 0)
