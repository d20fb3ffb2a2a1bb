/* _kinolavust for CPython: an open file and its prepared statements, over kinolavust.h, and what cursors and connections begin with.
 * kinolavust.py stands on it, or on kinolavust_ctypes.py, which has the same classes.
 *
 * A file is made with two functions of kinolavust.py: one makes the exception of a refusal, the other makes plain values (None,
 * int of 64 bits, str, bytes) of what a caller gives, or raises. What is plain already is bound without a call of Python.
 * All that a caller's code may do meanwhile is allowed: a handle is NULL once its file is closed, and the functions of kinolavust.h
 * take NULL; a statement holds its file. The lock of the interpreter is kept: a database belongs to the thread that opened it.
 */
#define PY_SSIZE_T_CLEAN
#include <Python.h>
#include <structmember.h>

#include "kinolavust.h"

#include <stdbool.h>
#include <stdint.h>
#include <string.h>

typedef struct {
  PyObject_HEAD
  kinolavust *db;          /* NULL: it is closed */
  PyObject *exception_of;  /* (number, message, place, subject): an exception; of number 0, that of a closed database */
  PyObject *plain_values;  /* (names, parameters): a tuple of plain values, one for each name */
} File;

typedef struct {
  PyObject_HEAD
  File *file;
  kinolavust_statement *at;
  PyObject *names; /* of each parameter its name without the mark, or None */
} Statement;

/* What a cursor begins with: an iterator over its rows. */
typedef struct {
  PyObject_HEAD
  PyObject *connection;
  PyObject *rows; /* a list that no one else changes, or an iterator; NULL: none */
  Py_ssize_t next; /* the place of the list's next row */
  Py_ssize_t arraysize;
  PyObject *weak; /* references that don't keep it */
} Rows;

/* What a connection begins with. */
typedef struct {
  PyObject_HEAD
  PyObject *file; /* of kinolavust.py: its `statement` gives the statement of a text */
  unsigned number;
  PyTypeObject *cursor; /* the class of its cursors */
  /* the text that came last, the object itself, and its statement, where it was prepared: a loop gives the same again and again */
  PyObject *text;
  Statement *statement;
} Link;

static PyTypeObject FileType, StatementType, RowsType, LinkType;

/* ---- exceptions */

static PyObject *text_of(const char *bytes, size_t len) { return PyUnicode_DecodeUTF8(bytes, (Py_ssize_t)len, "replace"); }

/* Raises the exception of a refusal. Gives NULL. */
static void *refuse(const File *it, int number, const char *message, uint64_t place, const char *subject, size_t subject_len) {
  PyObject *exception = PyObject_CallFunction(it->exception_of, "iNKN", number, text_of(message, strlen(message)),
                                              (unsigned long long)place, text_of(subject, subject_len));
  if (exception) PyErr_SetObject((PyObject *)Py_TYPE(exception), exception);
  Py_XDECREF(exception);
  return NULL;
}

/* Raises the exception of the last call's refusal. Gives NULL. */
static void *refuse_as_told(const File *it, int number) {
  size_t len;
  const char *subject = kinolavust_subject(it->db, &len);
  return refuse(it, number, kinolavust_message(it->db), kinolavust_place(it->db), subject, len);
}

/* Whether the file is open. If not, raises that. */
static bool is_open(const File *it) { return it->db || refuse(it, 0, "the database is closed", 0, "", 0); }

/* ---- rows */

static PyObject *value_of(const kinolavust_rows *rows, size_t row, size_t column) {
  size_t len;
  const char *bytes = kinolavust_bytes(rows, row, column, &len);
  switch (kinolavust_kind(rows, row, column)) {
    case KINOLAVUST_INTEGER: return PyLong_FromLongLong(kinolavust_integer(rows, row, column));
    case KINOLAVUST_TEXT: return PyUnicode_DecodeUTF8(bytes, (Py_ssize_t)len, NULL);
    case KINOLAVUST_BLOB: return PyBytes_FromStringAndSize(bytes, (Py_ssize_t)len);
    default: Py_RETURN_NONE;
  }
}

static PyObject *row_of(const kinolavust_rows *rows, size_t row) {
  size_t count = kinolavust_column_count(rows, row);
  PyObject *values = PyTuple_New((Py_ssize_t)count);
  for (size_t column = 0; values && column < count; column++) {
    PyObject *value = value_of(rows, row, column);
    if (value)
      PyTuple_SET_ITEM(values, (Py_ssize_t)column, value);
    else
      Py_CLEAR(values);
  }
  return values;
}

/* The rows of a reply as a list of tuples. Frees them. */
static PyObject *list_of(kinolavust_rows *rows) {
  size_t count = kinolavust_row_count(rows);
  PyObject *list = PyList_New((Py_ssize_t)count);
  for (size_t row = 0; list && row < count; row++) {
    PyObject *values = row_of(rows, row);
    if (values)
      PyList_SET_ITEM(list, (Py_ssize_t)row, values);
    else
      Py_CLEAR(list);
  }
  kinolavust_free(rows);
  return list;
}

/* ---- values */

static bool is_of_64_bits(PyObject *number) {
  int overflow;
  (void)PyLong_AsLongLongAndOverflow(number, &overflow);
  return !overflow;
}

static bool is_plain(PyObject *value) {
  return value == Py_None || PyUnicode_CheckExact(value) || PyBytes_CheckExact(value) ||
         ((PyLong_CheckExact(value) || PyBool_Check(value)) && is_of_64_bits(value));
}

/* Whether these are plain values, one for each name. */
static bool are_plain(PyObject *names, PyObject *values) {
  if (!PyTuple_CheckExact(values) || PyTuple_GET_SIZE(values) != PyTuple_GET_SIZE(names)) return false;
  for (Py_ssize_t i = 0; i < PyTuple_GET_SIZE(values); i++)
    if (!is_plain(PyTuple_GET_ITEM(values, i))) return false;
  return true;
}

/* Has Python make plain values, or raise why it can't. */
static PyObject *made_plain(const Statement *it, PyObject *parameters) {
  PyObject *values = PyObject_CallFunctionObjArgs(it->file->plain_values, it->names, parameters, NULL);
  if (values && !are_plain(it->names, values)) {
    PyErr_BadInternalCall();
    Py_CLEAR(values);
  }
  return values;
}

/* A new reference to a tuple; to what isn't a list, as it is. */
static PyObject *as_tuple(PyObject *parameters) {
  if (PyList_CheckExact(parameters)) return PyList_AsTuple(parameters);
  Py_INCREF(parameters);
  return parameters;
}

/* The plain values of what a caller gives: a new reference to a tuple, or NULL. */
static PyObject *values_of(const Statement *it, PyObject *parameters) {
  PyObject *values = as_tuple(parameters);
  if (!values || are_plain(it->names, values)) return values;
  Py_DECREF(values);
  return made_plain(it, parameters);
}

/* Binds a text: the number of a refusal, or -1 where an exception was raised. */
static int bind_text(kinolavust_statement *it, size_t place, PyObject *value) {
  Py_ssize_t len;
  const char *text = PyUnicode_AsUTF8AndSize(value, &len);
  return text ? kinolavust_bind_text(it, place, text, (size_t)len) : -1;
}

static int bind_value(kinolavust_statement *it, size_t place, PyObject *value) {
  if (value == Py_None) return kinolavust_bind_null(it, place);
  if (PyUnicode_Check(value)) return bind_text(it, place, value);
  if (PyLong_Check(value)) return kinolavust_bind_integer(it, place, PyLong_AsLongLong(value));
  return kinolavust_bind_blob(it, place, PyBytes_AS_STRING(value), (size_t)PyBytes_GET_SIZE(value));
}

static int bind_values(kinolavust_statement *it, PyObject *values) {
  int number = 0;
  for (Py_ssize_t i = 0; i < PyTuple_GET_SIZE(values) && !number; i++)
    number = bind_value(it, (size_t)i + 1, PyTuple_GET_ITEM(values, i));
  return number;
}

/* ---- statements */

/* Binds plain values, and runs the statement. Whether it did; if not, an exception was raised. */
static bool run_plain(const Statement *it, unsigned connection, PyObject *values, kinolavust_rows **rows) {
  if (!is_open(it->file)) return false;
  int number = bind_values(it->at, values);
  if (!number) number = kinolavust_run(it->at, connection, rows);
  if (number > 0) refuse_as_told(it->file, number);
  return number == 0;
}

static bool run(const Statement *it, unsigned connection, PyObject *parameters, kinolavust_rows **rows) {
  PyObject *values = values_of(it, parameters);
  bool ran = values && run_plain(it, connection, values, rows);
  Py_XDECREF(values);
  return ran;
}

/* Whether these are the number of a connection and another argument. If not, raises that. */
static bool takes_two(PyObject *const *arguments, Py_ssize_t count, unsigned *connection) {
  if (count != 2) {
    PyErr_Format(PyExc_TypeError, "two arguments are wanted, and given were %zd", count);
    return false;
  }
  *connection = (unsigned)PyLong_AsUnsignedLongMask(arguments[0]);
  return !PyErr_Occurred();
}

static PyObject *statement_run(Statement *it, PyObject *const *arguments, Py_ssize_t count) {
  unsigned connection;
  kinolavust_rows *rows;
  return takes_two(arguments, count, &connection) && run(it, connection, arguments[1], &rows) ? list_of(rows) : NULL;
}

/* Runs the statement with each of some values, and gives the rows of the last run. Whether it did. */
static bool run_each(const Statement *it, unsigned connection, PyObject *each, kinolavust_rows **last) {
  PyObject *parameters;
  bool ran = true;
  while (ran && (parameters = PyIter_Next(each))) {
    kinolavust_free(*last);
    *last = NULL;
    ran = PyErr_CheckSignals() == 0 && run(it, connection, parameters, last);
    Py_DECREF(parameters);
  }
  return ran && !PyErr_Occurred();
}

static PyObject *statement_run_many(Statement *it, PyObject *const *arguments, Py_ssize_t count) {
  unsigned connection;
  PyObject *each = takes_two(arguments, count, &connection) ? PyObject_GetIter(arguments[1]) : NULL;
  if (!each) return NULL;
  kinolavust_rows *last = NULL;
  bool ran = run_each(it, connection, each, &last);
  Py_DECREF(each);
  if (ran) return list_of(last);
  kinolavust_free(last);
  return NULL;
}

static void statement_dealloc(Statement *it) {
  kinolavust_finish(it->at);
  Py_XDECREF(it->names);
  Py_DECREF(it->file);
  Py_TYPE(it)->tp_free(it);
}

/* The name of a parameter without its mark, or None. */
static PyObject *name_of(const kinolavust_statement *it, size_t place) {
  size_t len;
  const char *name = kinolavust_parameter_name(it, place, &len);
  if (!name || name[0] == '?') Py_RETURN_NONE;
  return PyUnicode_DecodeUTF8(name + 1, (Py_ssize_t)len - 1, NULL);
}

static PyObject *names_of(const kinolavust_statement *it) {
  size_t count = kinolavust_parameter_count(it);
  PyObject *names = PyTuple_New((Py_ssize_t)count);
  for (size_t place = 1; names && place <= count; place++) {
    PyObject *name = name_of(it, place);
    if (name)
      PyTuple_SET_ITEM(names, (Py_ssize_t)place - 1, name);
    else
      Py_CLEAR(names);
  }
  return names;
}

static PyObject *statement_of(File *file, kinolavust_statement *at) {
  Statement *it = PyObject_New(Statement, &StatementType);
  if (!it) {
    kinolavust_finish(at);
    return NULL;
  }
  Py_INCREF(file);
  it->file = file;
  it->at = at;
  it->names = names_of(at);
  if (!it->names) Py_CLEAR(it);
  return (PyObject *)it;
}

static PyMethodDef statement_methods[] = {
    {"run", (PyCFunction)(void (*)(void))statement_run, METH_FASTCALL, "run(connection, parameters): the rows as tuples"},
    {"run_many", (PyCFunction)(void (*)(void))statement_run_many, METH_FASTCALL,
     "run_many(connection, many): runs it with each of these, and gives the rows of the last"},
    {NULL, NULL, 0, NULL}};

static PyTypeObject StatementType = {
    PyVarObject_HEAD_INIT(NULL, 0)
    .tp_name = "_kinolavust.Statement",
    .tp_doc = "A prepared statement of an open file.",
    .tp_basicsize = sizeof(Statement),
    .tp_flags = Py_TPFLAGS_DEFAULT,
    .tp_dealloc = (destructor)statement_dealloc,
    .tp_methods = statement_methods,
};

/* ---- files */

static PyObject *file_prepare(File *it, PyObject *sql) {
  Py_ssize_t len;
  const char *text = PyUnicode_AsUTF8AndSize(sql, &len);
  if (!text || !is_open(it)) return NULL;
  kinolavust_statement *at;
  int number = kinolavust_prepare(it->db, text, (size_t)len, &at);
  return number ? refuse_as_told(it, number) : statement_of(it, at);
}

static PyObject *file_execute(File *it, PyObject *arguments) {
  unsigned connection;
  const char *sql;
  Py_ssize_t len;
  if (!PyArg_ParseTuple(arguments, "Is#:execute", &connection, &sql, &len) || !is_open(it)) return NULL;
  kinolavust_rows *rows;
  int number = kinolavust_execute(it->db, connection, sql, (size_t)len, &rows);
  return number ? refuse_as_told(it, number) : list_of(rows);
}

static PyObject *file_close(File *it, PyObject *Py_UNUSED(none)) {
  kinolavust *db = it->db;
  it->db = NULL;
  kinolavust_close(db);
  Py_RETURN_NONE;
}

static PyObject *file_is_open(File *it, void *Py_UNUSED(none)) { return PyBool_FromLong(it->db != NULL); }

static void file_dealloc(File *it) {
  kinolavust_close(it->db);
  Py_XDECREF(it->exception_of);
  Py_XDECREF(it->plain_values);
  Py_TYPE(it)->tp_free(it);
}

static PyObject *file_new(PyTypeObject *type, PyObject *arguments, PyObject *Py_UNUSED(named)) {
  const char *path;
  kinolavust_options options;
  unsigned long long salts;
  PyObject *exception_of, *plain_values;
  if (!PyArg_ParseTuple(arguments, "yIKOO:File", &path, &options.page_size, &salts, &exception_of, &plain_values)) return NULL;
  File *it = (File *)type->tp_alloc(type, 0);
  if (!it) return NULL;
  Py_INCREF(exception_of);
  Py_INCREF(plain_values);
  it->exception_of = exception_of;
  it->plain_values = plain_values;
  options.salts = salts;
  int number = kinolavust_open(path, &options, &it->db);
  if (!number) return (PyObject *)it;
  refuse_as_told(it, number);
  Py_DECREF(it);
  return NULL;
}

static PyMethodDef file_methods[] = {
    {"prepare", (PyCFunction)file_prepare, METH_O, "prepare(sql): a statement"},
    {"execute", (PyCFunction)file_execute, METH_VARARGS, "execute(connection, sql): the rows as tuples"},
    {"close", (PyCFunction)file_close, METH_NOARGS, "Rolls open transactions back. Its statements are of no use then."},
    {NULL, NULL, 0, NULL}};

static PyGetSetDef file_properties[] = {{"is_open", (getter)file_is_open, NULL, NULL, NULL}, {NULL, NULL, NULL, NULL, NULL}};

static PyTypeObject FileType = {
    PyVarObject_HEAD_INIT(NULL, 0)
    .tp_name = "_kinolavust.File",
    .tp_doc = "File(path, page_size, salts, exception_of, plain_values): an open file",
    .tp_basicsize = sizeof(File),
    .tp_flags = Py_TPFLAGS_DEFAULT,
    .tp_new = file_new,
    .tp_dealloc = (destructor)file_dealloc,
    .tp_methods = file_methods,
    .tp_getset = file_properties,
};

/* ---- rows of a cursor */

/* What a cursor keeps of rows: a list as it is, of others an iterator. */
static PyObject *kept_rows(PyObject *rows) {
  if (!PyList_CheckExact(rows)) return PyObject_GetIter(rows);
  Py_INCREF(rows);
  return rows;
}

/* A cursor of a class over rows, or over none. */
static PyObject *cursor_over(PyTypeObject *type, PyObject *connection, PyObject *rows) {
  Rows *it = (Rows *)type->tp_alloc(type, 0);
  if (!it) return NULL;
  Py_INCREF(connection);
  it->connection = connection;
  it->arraysize = 1;
  if (rows && !(it->rows = kept_rows(rows))) Py_CLEAR(it);
  return (PyObject *)it;
}

static PyObject *rows_new(PyTypeObject *type, PyObject *arguments, PyObject *Py_UNUSED(named)) {
  PyObject *connection, *rows = NULL;
  return PyArg_UnpackTuple(arguments, "Rows", 1, 2, &connection, &rows) ? cursor_over(type, connection, rows) : NULL;
}

static PyObject *rows_next(Rows *it) {
  if (!it->rows) return NULL;
  if (!PyList_CheckExact(it->rows)) return PyIter_Next(it->rows);
  if (it->next >= PyList_GET_SIZE(it->rows)) {
    Py_CLEAR(it->rows);
    return NULL;
  }
  PyObject *row = PyList_GET_ITEM(it->rows, it->next++);
  Py_INCREF(row);
  return row;
}

/* Has it go over other rows. */
static PyObject *rows_take(Rows *it, PyObject *rows) {
  PyObject *kept = kept_rows(rows), *before = it->rows;
  if (!kept) return NULL;
  it->rows = kept;
  it->next = 0;
  Py_XDECREF(before);
  Py_RETURN_NONE;
}

static int rows_traverse(Rows *it, visitproc visit, void *arg) {
  Py_VISIT(it->connection);
  Py_VISIT(it->rows);
  return 0;
}

static int rows_clear(Rows *it) {
  Py_CLEAR(it->connection);
  Py_CLEAR(it->rows);
  return 0;
}

static void rows_dealloc(Rows *it) {
  PyObject_GC_UnTrack(it);
  if (it->weak) PyObject_ClearWeakRefs((PyObject *)it);
  rows_clear(it);
  Py_TYPE(it)->tp_free(it);
}

static PyMethodDef rows_methods[] = {
    {"_take", (PyCFunction)rows_take, METH_O, "Has it go over other rows."},
    {NULL, NULL, 0, NULL}};

static PyMemberDef rows_members[] = {
    {"connection", T_OBJECT_EX, offsetof(Rows, connection), READONLY, NULL},
    {"arraysize", T_PYSSIZET, offsetof(Rows, arraysize), 0, NULL},
    {NULL, 0, 0, 0, NULL}};

static PyTypeObject RowsType = {
    PyVarObject_HEAD_INIT(NULL, 0)
    .tp_name = "_kinolavust.Rows",
    .tp_doc = "Rows(connection[, rows]): what a cursor begins with",
    .tp_basicsize = sizeof(Rows),
    .tp_flags = Py_TPFLAGS_DEFAULT | Py_TPFLAGS_BASETYPE | Py_TPFLAGS_HAVE_GC,
    .tp_new = rows_new,
    .tp_dealloc = (destructor)rows_dealloc,
    .tp_traverse = (traverseproc)rows_traverse,
    .tp_clear = (inquiry)rows_clear,
    .tp_weaklistoffset = offsetof(Rows, weak),
    .tp_iter = PyObject_SelfIter,
    .tp_iternext = (iternextfunc)rows_next,
    .tp_methods = rows_methods,
    .tp_members = rows_members,
};

/* ---- connections */

static PyObject *link_new(PyTypeObject *type, PyObject *arguments, PyObject *Py_UNUSED(named)) {
  PyObject *file, *cursor;
  unsigned number;
  if (!PyArg_ParseTuple(arguments, "OIO!:Connection", &file, &number, &PyType_Type, &cursor)) return NULL;
  if (!PyType_IsSubtype((PyTypeObject *)cursor, &RowsType)) return PyErr_Format(PyExc_TypeError, "the class of cursors begins with Rows");
  Link *it = (Link *)type->tp_alloc(type, 0);
  if (!it) return NULL;
  Py_INCREF(file);
  Py_INCREF(cursor);
  it->file = file;
  it->number = number;
  it->cursor = (PyTypeObject *)cursor;
  return (PyObject *)it;
}

/* Has it remember a text and its statement, whose reference it takes. */
static void link_remember(Link *it, PyObject *text, Statement *statement) {
  PyObject *text_before = it->text, *statement_before = (PyObject *)it->statement;
  Py_INCREF(text);
  it->text = text;
  it->statement = statement;
  Py_XDECREF(text_before);
  Py_XDECREF(statement_before);
}

/* The rows of a statement that was prepared. */
static PyObject *prepared_rows(Statement *it, unsigned connection, PyObject *parameters) {
  kinolavust_rows *rows;
  Py_INCREF(it); /* what a caller's code runs meanwhile may forget it */
  PyObject *list = run(it, connection, parameters, &rows) ? list_of(rows) : NULL;
  Py_DECREF(it);
  return list;
}

/* The rows of a text's statement. */
static PyObject *link_rows(Link *it, PyObject *text, PyObject *parameters) {
  if (text == it->text) return prepared_rows(it->statement, it->number, parameters);
  PyObject *statement = PyObject_CallMethod(it->file, "statement", "O", text);
  if (!statement) return NULL;
  if (Py_TYPE(statement) == &StatementType) {
    link_remember(it, text, (Statement *)statement);
    return prepared_rows((Statement *)statement, it->number, parameters);
  }
  PyObject *rows = PyObject_CallMethod(statement, "run", "IO", it->number, parameters);
  Py_DECREF(statement);
  return rows;
}

static PyObject *link_execute(Link *it, PyObject *const *arguments, Py_ssize_t count) {
  if (count != 1 && count != 2) return PyErr_Format(PyExc_TypeError, "execute takes a text and parameters, and given were %zd", count);
  PyObject *none = count == 2 ? NULL : PyTuple_New(0);
  PyObject *rows = link_rows(it, arguments[0], none ? none : arguments[1]);
  PyObject *cursor = rows ? cursor_over(it->cursor, (PyObject *)it, rows) : NULL;
  Py_XDECREF(rows);
  Py_XDECREF(none);
  return cursor;
}

static int link_traverse(Link *it, visitproc visit, void *arg) {
  Py_VISIT(it->file);
  Py_VISIT(it->cursor);
  Py_VISIT(it->text);
  Py_VISIT(it->statement);
  return 0;
}

static int link_clear(Link *it) {
  Py_CLEAR(it->file);
  Py_CLEAR(it->cursor);
  Py_CLEAR(it->text);
  Py_CLEAR(it->statement);
  return 0;
}

static void link_dealloc(Link *it) {
  PyObject_GC_UnTrack(it);
  link_clear(it);
  Py_TYPE(it)->tp_free(it);
}

static PyMethodDef link_methods[] = {
    {"execute", (PyCFunction)(void (*)(void))link_execute, METH_FASTCALL, "execute(sql, parameters=()): a cursor over the rows"},
    {NULL, NULL, 0, NULL}};

static PyMemberDef link_members[] = {
    {"_file", T_OBJECT_EX, offsetof(Link, file), READONLY, NULL},
    {"number", T_UINT, offsetof(Link, number), READONLY, NULL},
    {NULL, 0, 0, 0, NULL}};

static PyTypeObject LinkType = {
    PyVarObject_HEAD_INIT(NULL, 0)
    .tp_name = "_kinolavust.Link",
    .tp_doc = "Link(file, number, cursor): what a connection begins with",
    .tp_basicsize = sizeof(Link),
    .tp_flags = Py_TPFLAGS_DEFAULT | Py_TPFLAGS_BASETYPE | Py_TPFLAGS_HAVE_GC,
    .tp_new = link_new,
    .tp_dealloc = (destructor)link_dealloc,
    .tp_traverse = (traverseproc)link_traverse,
    .tp_clear = (inquiry)link_clear,
    .tp_methods = link_methods,
    .tp_members = link_members,
};

/* ---- the module */

static PyObject *module_name(PyObject *Py_UNUSED(module), PyObject *number) {
  int at = (int)PyLong_AsLong(number);
  return PyErr_Occurred() ? NULL : PyUnicode_FromString(kinolavust_name(at));
}

static int add_type(PyObject *module, const char *name, PyTypeObject *type) {
  if (PyType_Ready(type) < 0) return -1;
  Py_INCREF(type);
  int failed = PyModule_AddObject(module, name, (PyObject *)type);
  if (failed) Py_DECREF(type);
  return failed;
}

static int fill_module(PyObject *it) {
  bool filled = PyType_Ready(&StatementType) == 0 && add_type(it, "File", &FileType) == 0 && add_type(it, "Rows", &RowsType) == 0 &&
                add_type(it, "Link", &LinkType) == 0;
  return filled ? 0 : -1;
}

static PyMethodDef module_methods[] = {{"name", module_name, METH_O, "name(number): the name of a refusal"}, {NULL, NULL, 0, NULL}};

static PyModuleDef_Slot module_slots[] = {{Py_mod_exec, (void *)fill_module}, {0, NULL}};

static PyModuleDef module = {
    PyModuleDef_HEAD_INIT,
    .m_name = "_kinolavust",
    .m_doc = "Open files and prepared statements, for kinolavust.py.",
    .m_methods = module_methods,
    .m_slots = module_slots,
};

PyMODINIT_FUNC PyInit__kinolavust(void) { return PyModuleDef_Init(&module); }
