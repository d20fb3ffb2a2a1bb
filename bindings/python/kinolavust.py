"""kinolavust for Python: the database interface of PEP 249, over the library of bindings/c.

    import kinolavust
    with kinolavust.connect("notes.db") as db:
        db.execute("CREATE TABLE notes(subject TEXT, note TEXT)")
        db.execute("INSERT INTO notes VALUES (?, ?)", ("home", "call Ann"))
        for (note,) in db.execute("SELECT note FROM notes WHERE subject = ?", ("home",)):
            print(note)

Parameters are `?`, `?N` and `:name`. A statement is prepared, and kept for the next time that its text comes. Each statement commits
by itself, except between BEGIN and COMMIT.
`Connection.other(2)` is another of the sixteen connections of the same file, with its own transaction and snapshot.

The library is called by the extension _kinolavust, beside this file, in bindings/out or on Python's path; where there is none for this
Python, where KINOLAVUST_CTYPES is 1, or where KINOLAVUST_LIB names a shared library, by kinolavust_ctypes, which does the same more slowly.
"""
import collections
import importlib.machinery
import importlib.util
import operator
import os
import re
import sys


def _extension():
    """The extension, or None."""
    if os.environ.get("KINOLAVUST_CTYPES") == "1" or os.environ.get("KINOLAVUST_LIB"):
        return None
    here = os.path.dirname(os.path.realpath(__file__))
    found = importlib.machinery.PathFinder.find_spec("_kinolavust", [here, f"{here}/../out", *sys.path])
    if not found:
        return None
    try:
        module = importlib.util.module_from_spec(found)
        found.loader.exec_module(module)
    except ImportError:
        return None
    return module


_library = _extension()
if not _library:
    import kinolavust_ctypes as _library

apilevel = "2.0"
threadsafety = 0
paramstyle = "qmark"


class Warning(Exception):  # noqa: A001 (the name is PEP 249's)
    """Never raised."""


class Error(Exception):
    """A refusal. `number` and `name` are those of docs/ERRORS.md, `place` is the byte of the statement where it leaves the grammar
    or the damaged page, and `subject` the name or the text that it speaks of. Of an error of this module the number is 0."""

    def __init__(self, message, number=0, place=0, subject=""):
        super().__init__(message)
        self.number, self.place, self.subject = number, place, subject
        self.name = _library.name(number) if number else ""


class InterfaceError(Error):
    """A use of this module that isn't allowed."""


class DatabaseError(Error):
    """A refusal of the engine."""


class DataError(DatabaseError):
    pass


class OperationalError(DatabaseError):
    pass


class IntegrityError(DatabaseError):
    pass


class InternalError(DatabaseError):
    pass


class ProgrammingError(DatabaseError):
    pass


class NotSupportedError(DatabaseError):
    pass


CLASSES = {
    **dict.fromkeys((1, 2, 6, 12, 13, 14, 15, 16, 23, 28, 29, 30), OperationalError),
    **dict.fromkeys((3, 5), DatabaseError),
    **dict.fromkeys((7, 8, 9, 10, 11), ProgrammingError),
    **dict.fromkeys((17, 18, 19, 20, 26), IntegrityError),
    **dict.fromkeys((21, 22, 24, 25), DataError),
    **dict.fromkeys((4, 27), NotSupportedError),
}


def _exception(number, message, place, subject):
    """The exception of a refusal; of number 0, that of a closed database."""
    return (CLASSES.get(number, DatabaseError) if number else ProgrammingError)(message, number, place, subject)


def _integer_of_64_bits(value):
    if not isinstance(value, int):
        raise InterfaceError(f"a whole number is wanted, and given was: {type(value).__name__}")
    if not -(1 << 63) <= value < 1 << 63:
        raise DataError(f"an integer outside 64 bits: {value}")
    return int(value)


def _plain_value(value):
    if value is None:
        return None
    if isinstance(value, int):
        return _integer_of_64_bits(value)
    if isinstance(value, str):
        return str.__str__(value)
    if isinstance(value, (bytes, bytearray, memoryview)):
        return bytes(value)
    raise InterfaceError(f"a parameter of a type that isn't supported: {type(value).__name__}")


def _values_by_name(names, parameters):
    if None in names:
        raise ProgrammingError(f"parameter {names.index(None) + 1} has no name, and values by name were given")
    try:
        return [parameters[name] for name in names]
    except LookupError as error:
        raise ProgrammingError(f"no value was given for the parameter {error}") from None


def _plain_values(names, parameters):
    """The values of a statement's parameters, one for each name, in the order of their places: None, int of 64 bits, str or bytes."""
    values = _values_by_name(names, parameters) if hasattr(parameters, "keys") else tuple(parameters)
    if len(values) != len(names):
        raise ProgrammingError(f"the statement has {len(names)} parameters, and {len(values)} were given")
    return tuple(map(_plain_value, values))


class _Unprepared:
    """A statement that is read each time."""

    def __init__(self, file, sql):
        self.file, self.sql = file, sql

    def run_many(self, connection, many):
        """Runs it with each of these, and gives the rows of the last."""
        rows = []
        for parameters in many:
            rows = self.run(connection, parameters)
        return rows


class _Text(_Unprepared):
    """A statement that can't be prepared, as CREATE TABLE or BEGIN, and why."""

    def __init__(self, file, sql, refusal):
        super().__init__(file, sql)
        self.refusal = refusal

    def run(self, connection, parameters):
        """Executes it, if no values are given."""
        if not parameters:
            return self.file.handle.execute(connection, self.sql)
        if "?" in self.sql or ":" in self.sql:
            raise self.refusal
        raise ProgrammingError("the statement has no parameters, and some were given")


# What a `?` isn't a parameter in, a quoted text or a comment; then a `?`, with the word before it where that is LIMIT or OFFSET.
_PLACE = re.compile(r"""'[^']*'?|"[^"]*"?|`[^`]*`?|\[[^]]*]?|--[^\n]*|/\*.*?(?:\*/|\Z)|(\b(?:LIMIT|OFFSET)\s+)?(\?)(?!\d)""", re.DOTALL | re.IGNORECASE)


class _Limited(_Unprepared):
    """A statement with a parameter for LIMIT or OFFSET, whose numbers the engine takes as literals alone: they are written into its text."""

    def __init__(self, file, sql):
        super().__init__(file, sql)
        self.pieces, self.is_limit, begun = [], [], 0
        for place in filter(lambda it: it[2], _PLACE.finditer(sql)):
            self.pieces.append(sql[begun : place.end() - 1])
            self.is_limit.append(place[1] is not None)
            begun = place.end()
        self.pieces.append(sql[begun:])

    def run(self, connection, parameters):
        values = list(parameters)
        if len(values) != len(self.is_limit):
            raise ProgrammingError(f"the statement has {len(self.is_limit)} parameters, and {len(values)} were given")
        written = ["?" if not is_limit else str(_integer_of_64_bits(value)) for is_limit, value in zip(self.is_limit, values)]
        sql = "".join(piece + place for piece, place in zip(self.pieces, [*written, ""]))
        return self.file.statement(sql).run(connection, [value for is_limit, value in zip(self.is_limit, values) if not is_limit])


def _name_of_file(path):
    name = os.fsencode(path)
    if b"\0" in name:
        raise ValueError("a zero byte in the name of a file")
    return name


class _File:
    """An open file, which its connections share, with the statements that were prepared last."""

    def __init__(self, path, page_size, salts, cached_statements):
        self.cached_statements, self.statements = cached_statements, collections.OrderedDict()
        self.handle = _library.File(_name_of_file(path), page_size, salts, _exception, _plain_values)

    def statement(self, sql):
        """The statement of a text. Those that were prepared are kept: the one that wasn't used for longest makes room for a new one."""
        statement = self.statements.get(sql)
        if not statement:
            return self._new_statement(sql)
        self.statements.move_to_end(sql)
        return statement

    def _new_statement(self, sql):
        if not isinstance(sql, str):
            raise TypeError(f"a statement is a str, and given was: {type(sql).__name__}")
        try:
            statement = self.handle.prepare(sql)
        except NotSupportedError as refusal:
            return _Text(self, sql, refusal.with_traceback(None))
        except ProgrammingError as refusal:
            limited = _Limited(self, sql)
            if refusal.number != 7 or not any(limited.is_limit):
                raise
            return limited
        self._keep(sql, statement)
        return statement

    def _keep(self, sql, statement):
        self.statements[sql] = statement
        while len(self.statements) > self.cached_statements:
            self.statements.popitem(last=False)

    def close(self):
        self.statements.clear()
        self.handle.close()


class Connection(_library.Link):
    """One of the sixteen connections of an open file. As a context it commits its transaction at the end, rolls it back if an
    exception is raised, and then closes."""

    Warning, Error, InterfaceError, DatabaseError, DataError = Warning, Error, InterfaceError, DatabaseError, DataError
    OperationalError, IntegrityError, InternalError = OperationalError, IntegrityError, InternalError
    ProgrammingError, NotSupportedError = ProgrammingError, NotSupportedError

    def cursor(self):
        return Cursor(self)

    def executemany(self, sql, many):
        return self.cursor().executemany(sql, many)

    def other(self, number):
        """Another connection of the same file, 1 to 16."""
        return Connection(self._file, operator.index(number), Cursor)

    def commit(self):
        """Ends the transaction, if one is open."""
        self._end("COMMIT")

    def rollback(self):
        """Undoes the transaction, if one is open."""
        self._end("ROLLBACK")

    def _end(self, word):
        try:
            self._file.handle.execute(self.number, word)
        except OperationalError as error:
            if error.number != 14:
                raise

    def close(self):
        """Closes the file, also for its other connections. Open transactions are rolled back."""
        self._file.close()

    def __enter__(self):
        return self

    def __exit__(self, kind, *_):
        try:
            if self._file.handle.is_open:
                self.rollback() if kind else self.commit()
        finally:
            self.close()


class Cursor(_library.Rows):
    """The rows of the statement that it executed last, as an iterator."""

    __slots__ = ()
    rowcount = -1
    description = None
    lastrowid = None

    def execute(self, sql, parameters=()):
        connection = self.connection
        self._take(connection._file.statement(sql).run(connection.number, parameters))
        return self

    def executemany(self, sql, many):
        connection = self.connection
        self._take(connection._file.statement(sql).run_many(connection.number, many))
        return self

    def fetchone(self):
        return next(self, None)

    def fetchmany(self, size=None):
        return [row for _, row in zip(range(self.arraysize if size is None else size), self)]

    def fetchall(self):
        return list(self)

    def setinputsizes(self, sizes):
        pass

    def setoutputsize(self, size, column=None):
        pass

    def close(self):
        self._take(())


def connect(path, page_size=0, salts=0, cached_statements=100):
    """Opens the database of a file, and creates it where the file doesn't exist or is blank. So many prepared statements are kept."""
    return Connection(_File(path, page_size, salts, cached_statements), 1, Cursor)
