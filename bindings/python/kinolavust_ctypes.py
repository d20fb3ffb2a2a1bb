"""What the extension _kinolavust has, over the shared library of bindings/c by ctypes: for kinolavust.py, where the extension isn't there.

The shared library is KINOLAVUST_LIB, or libkinolavust.so beside this file or in bindings/out.
"""
import ctypes
import os


def _library():
    here = os.path.dirname(os.path.realpath(__file__))
    places = [f"{here}/libkinolavust.so", f"{here}/../out/libkinolavust.so"]
    return os.environ.get("KINOLAVUST_LIB") or next(filter(os.path.exists, places), "libkinolavust.so")


_lib = ctypes.CDLL(_library())
_p, _size, _int = ctypes.c_void_p, ctypes.c_size_t, ctypes.c_int


def _declare(name, gives, *takes):
    function = getattr(_lib, f"kinolavust_{name}")
    function.restype, function.argtypes = gives, takes
    return function


class _Options(ctypes.Structure):
    _fields_ = [("page_size", ctypes.c_uint32), ("salts", ctypes.c_uint64)]


_open = _declare("open", _int, ctypes.c_char_p, ctypes.POINTER(_Options), ctypes.POINTER(_p))
_execute = _declare("execute", _int, _p, ctypes.c_uint, ctypes.c_char_p, _size, ctypes.POINTER(_p))
_prepare = _declare("prepare", _int, _p, ctypes.c_char_p, _size, ctypes.POINTER(_p))
_parameter_count = _declare("parameter_count", _size, _p)
_parameter_name = _declare("parameter_name", _p, _p, _size, ctypes.POINTER(_size))
_bind_null = _declare("bind_null", _int, _p, _size)
_bind_integer = _declare("bind_integer", _int, _p, _size, ctypes.c_int64)
_bind_text = _declare("bind_text", _int, _p, _size, ctypes.c_char_p, _size)
_bind_blob = _declare("bind_blob", _int, _p, _size, ctypes.c_char_p, _size)
_run = _declare("run", _int, _p, ctypes.c_uint, ctypes.POINTER(_p))
_finish = _declare("finish", None, _p)
_message = _declare("message", ctypes.c_char_p, _p)
_place = _declare("place", ctypes.c_uint64, _p)
_subject = _declare("subject", _p, _p, ctypes.POINTER(_size))
_name = _declare("name", ctypes.c_char_p, _int)
_row_count = _declare("row_count", _size, _p)
_column_count = _declare("column_count", _size, _p, _size)
_kind = _declare("kind", _int, _p, _size, _size)
_integer = _declare("integer", ctypes.c_int64, _p, _size, _size)
_bytes = _declare("bytes", _p, _p, _size, _size, ctypes.POINTER(_size))
_free = _declare("free", None, _p)
_close = _declare("close", None, _p)


def name(number):
    """The name of a refusal."""
    return _name(number).decode()


def _value(rows, row, column):
    kind, count = _kind(rows, row, column), _size()
    if kind == 0:
        return None
    if kind == 1:
        return _integer(rows, row, column)
    at = _bytes(rows, row, column, ctypes.byref(count))
    data = ctypes.string_at(at, count.value)
    return data.decode() if kind == 2 else data


def _rows(rows):
    """The rows of a reply as tuples. They are freed."""
    try:
        return [tuple(_value(rows, row, it) for it in range(_column_count(rows, row))) for row in range(_row_count(rows))]
    finally:
        _free(rows)


class Statement:
    """A prepared statement of an open file."""

    def __init__(self, file, sql):
        self.file, self.at = file, _p()
        text = sql.encode()
        file.check(_prepare(file.at, text, len(text), ctypes.byref(self.at)))
        self.names = tuple(self._name(place + 1) for place in range(_parameter_count(self.at)))

    def _name(self, place):
        """The name of a parameter without its mark, or None."""
        count = _size()
        at = _parameter_name(self.at, place, ctypes.byref(count))
        name = ctypes.string_at(at, count.value).decode() if at else "?"
        return None if name[0] == "?" else name[1:]

    def _bind(self, place, value):
        if value is None:
            return _bind_null(self.at, place)
        if isinstance(value, int):
            return _bind_integer(self.at, place, value)
        data = value.encode() if isinstance(value, str) else value
        return (_bind_blob if data is value else _bind_text)(self.at, place, data, len(data))

    def run(self, connection, parameters):
        """The rows as tuples."""
        values, rows = self.file.plain_values(self.names, parameters), _p()
        self.file.check()
        for place, value in enumerate(values, 1):
            self.file.check(self._bind(place, value))
        self.file.check(_run(self.at, connection, ctypes.byref(rows)))
        return _rows(rows)

    def run_many(self, connection, many):
        """Runs it with each of these, and gives the rows of the last."""
        rows = []
        for parameters in many:
            rows = self.run(connection, parameters)
        return rows

    def __del__(self):
        _finish(self.at)


class File:
    """An open file. One function makes the exception of a refusal (of number 0, that of a closed database), the other makes plain
    values (None, int of 64 bits, str, bytes), one for each name, of what a caller gives, or raises."""

    def __init__(self, path, page_size, salts, exception_of, plain_values):
        self.at, self.exception_of, self.plain_values = _p(), exception_of, plain_values
        number = _open(path, ctypes.byref(_Options(page_size, salts)), ctypes.byref(self.at))
        if number:
            refusal = self._refusal(number)
            self.close()
            raise refusal

    @property
    def is_open(self):
        return bool(self.at)

    def _refusal(self, number):
        """The exception of the last call's refusal."""
        count = _size()
        subject = ctypes.string_at(_subject(self.at, ctypes.byref(count)), count.value).decode(errors="replace")
        return self.exception_of(number, _message(self.at).decode(errors="replace"), _place(self.at), subject)

    def check(self, number=0):
        """Raises the exception of the last call's refusal, or of a closed database."""
        if not self.at:
            raise self.exception_of(0, "the database is closed", 0, "")
        if number:
            raise self._refusal(number)

    def prepare(self, sql):
        self.check()
        return Statement(self, sql)

    def execute(self, connection, sql):
        """The rows as tuples."""
        self.check()
        text, rows = sql.encode(), _p()
        self.check(_execute(self.at, connection, text, len(text), ctypes.byref(rows)))
        return _rows(rows)

    def close(self):
        """Rolls open transactions back. Its statements are of no use then."""
        at, self.at = self.at, _p()
        _close(at)

    def __del__(self):
        if getattr(self, "at", None):
            self.close()


class Rows:
    """What a cursor begins with."""

    def __init__(self, connection, rows=()):
        self.connection, self._rows, self.arraysize = connection, iter(rows), 1

    def _take(self, rows):
        """Has it go over other rows."""
        self._rows = iter(rows)

    def __iter__(self):
        return self

    def __next__(self):
        return next(self._rows)


class Link:
    """What a connection begins with: a file of kinolavust.py, a number, and the class of its cursors."""

    def __init__(self, file, number, cursor):
        self._file, self.number, self._cursor = file, number, cursor

    def execute(self, sql, parameters=(), /):
        """A cursor over the rows."""
        return self._cursor(self, self._file.statement(sql).run(self.number, parameters))
