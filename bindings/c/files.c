/* The files of a database whose engine runs over their bytes: reads both, and carries out each change that the engine notes, in
 * its order, before a reply is given. */
#define _FILE_OFFSET_BITS 64
#define _GNU_SOURCE
#include "kinolavust.h"

#include <errno.h>
#include <fcntl.h>
#include <pthread.h>
#include <stdarg.h>
#include <stdbool.h>
#include <stdio.h>
#include <stdlib.h>
#include <string.h>
#include <sys/file.h>
#include <sys/stat.h>
#include <unistd.h>

/* ---- what the proved library exports: a slice is a pointer, which isn't NULL, and a length */

typedef struct { void *at; } session;
extern uint32_t kinolavust_session_open(const uint8_t *db, size_t db_len, const uint8_t *log, size_t log_len,
                                        uint32_t page_size, uint32_t first_salt, uint32_t second_salt, uint8_t *refusal,
                                        size_t refusal_len, session *out);
extern uint32_t kinolavust_session_execute(session it, uint32_t connection, const uint8_t *text, size_t len, session *out);
extern uint32_t kinolavust_session_prepare(session it, const uint8_t *text, size_t len, size_t *slot, size_t *count, session *out);
extern uint32_t kinolavust_session_run(session it, uint32_t connection, size_t slot, const uint8_t *values, size_t len,
                                       session *out);
extern uint32_t kinolavust_session_finish(session it, size_t slot, session *out);
extern size_t kinolavust_session_reply_len(session it, session *out);
extern bool kinolavust_session_reply(session it, uint8_t *bytes, size_t len, session *out);
extern size_t kinolavust_session_journal_len(session it, session *out);
extern bool kinolavust_session_journal(session it, uint8_t *bytes, size_t len, session *out);
extern void kinolavust_session_close(session it);

enum { MEMORY = 1, IO = 2, SYNTAX = 7, MISUSE = 11, BUSY = 12, FAILED = 28 };
enum { DEFAULT_PAGE_SIZE = 4096, REFUSAL_LEN = 512, MAX_STATEMENT_BYTES = 65536, MAX_PARAMETERS = 32766 };
#define DEFAULT_SALTS UINT64_C(0x0000000100000002)

struct kinolavust {
  session it;
  pthread_t thread; /* that opened it: what the session shares inside is counted without locks */
  int db, log;
  bool has_failed;
  int refusal;
  uint64_t place;
  char *message, *subject; /* NULL: none */
  size_t subject_len;
  kinolavust_statement *statements; /* those that aren't finished */
};

/* ---- bytes */

/* A part of some bytes. Where it would pass the end, `at` is NULL from then on. */
typedef struct { const uint8_t *at, *end; } part;

static const uint8_t *take(part *it, uint64_t count) {
  const uint8_t *at = it->at;
  if (!at || count > (uint64_t)(it->end - at)) return it->at = NULL;
  it->at = at + count;
  return at;
}

static uint64_t take_number(part *it) {
  const uint8_t *at = take(it, 8);
  uint64_t number = 0;
  for (size_t i = 0; at && i < 8; i++) number = number << 8 | at[i];
  return number;
}

/* Takes bytes after their count. */
static const uint8_t *take_counted(part *it, size_t *len) {
  uint64_t count = take_number(it);
  const uint8_t *at = take(it, count);
  *len = at ? (size_t)count : 0;
  return at;
}

/* ---- refusals */

static void forget_refusal(kinolavust *db) {
  free(db->message);
  free(db->subject);
  db->message = db->subject = NULL;
  db->subject_len = 0;
  db->place = 0;
  db->refusal = 0;
}

/* Keeps a refusal with a message. */
__attribute__((format(printf, 3, 4)))
static int refuse(kinolavust *db, int number, const char *format, ...) {
  forget_refusal(db);
  va_list words;
  va_start(words, format);
  if (vasprintf(&db->message, format, words) < 0) db->message = NULL;
  va_end(words);
  return db->refusal = number;
}

static int refuse_memory(kinolavust *db) { return refuse(db, MEMORY, "out of memory"); }

static char *copied(const uint8_t *bytes, size_t len) {
  char *text = malloc(len + 1);
  if (!text) return NULL;
  if (len) memcpy(text, bytes, len);
  text[len] = 0;
  return text;
}

/* Keeps a refusal of the engine: its place, its subject, its title and its message. */
static int refuse_as(kinolavust *db, int number, const uint8_t *bytes, size_t len) {
  forget_refusal(db);
  part rest = {bytes, bytes ? bytes + len : NULL};
  size_t subject_len, title_len, message_len;
  uint64_t place = take_number(&rest);
  const uint8_t *subject = take_counted(&rest, &subject_len);
  (void)take_counted(&rest, &title_len);
  const uint8_t *message = take_counted(&rest, &message_len);
  if (message) {
    db->place = place;
    db->subject = copied(subject, subject_len);
    db->subject_len = db->subject ? subject_len : 0;
    db->message = copied(message, message_len);
  }
  return db->refusal = number;
}

int kinolavust_refusal(const kinolavust *db) { return db ? db->refusal : MEMORY; }

uint64_t kinolavust_place(const kinolavust *db) { return db ? db->place : 0; }

const char *kinolavust_subject(const kinolavust *db, size_t *len) {
  if (len) *len = db ? db->subject_len : 0;
  return db && db->subject ? db->subject : "";
}

/* (the engine's message of a refusal, or its name where there was no memory for that) */
const char *kinolavust_message(const kinolavust *db) {
  if (!db) return "out of memory";
  if (db->message) return db->message;
  return db->refusal ? kinolavust_name(db->refusal) : "";
}

const char *kinolavust_name(int number) {
  static const char *const names[] = {
      "ok",          "Memory",     "Io",           "NotADatabase", "Unsupported",      "Damaged",      "Full",
      "Syntax",      "NoSuch",     "Exists",       "Ambiguous",    "Misuse",           "Busy",         "StaleSnapshot",
      "NoTransaction", "InTransaction", "NoSavepoint", "NotNull",  "Unique",           "Check",        "Raised",
      "RealRefused", "TypeRefused", "RowidFull",   "RowidMismatch", "TooLong",         "RowChangedBefore", "ViewReadOnly",
      "Failed",      "Blank",       "Journal"};
  return number >= 0 && number < (int)(sizeof names / sizeof *names) ? names[number] : "unknown";
}

/* ---- files */

static bool fails_for(int why) {
  errno = why;
  return false;
}

/* Reads a whole file, into bytes that the caller frees, also where it fails. They are never NULL where it succeeds. */
static bool read_file(int file, uint8_t **bytes, size_t *len) {
  struct stat it;
  if (fstat(file, &it) != 0) return false;
  if (!S_ISREG(it.st_mode)) return fails_for(EINVAL);
  *len = (size_t)it.st_size;
  if (!(*bytes = malloc(*len + 1))) return false;
  for (size_t at = 0; at < *len;) {
    ssize_t got = pread(file, *bytes + at, *len - at, (off_t)at);
    if (got < 0 && errno == EINTR) continue;
    if (got == 0) errno = EIO;
    if (got <= 0) return false;
    at += (size_t)got;
  }
  return true;
}

static bool write_all(int file, const uint8_t *bytes, size_t len, uint64_t at) {
  while (len > 0) {
    ssize_t put = pwrite(file, bytes, len, (off_t)at);
    if (put < 0 && errno == EINTR) continue;
    if (put == 0) errno = ENOSPC;
    if (put <= 0) return false;
    bytes += put;
    len -= (size_t)put;
    at += (uint64_t)put;
  }
  return true;
}

/* Carries out one change: its kind, its file, an offset or a length, and the bytes of a write. */
static bool carry_out_change(const kinolavust *db, part *rest) {
  const uint8_t *kind = take(rest, 2);
  uint64_t place = take_number(rest);
  size_t len;
  const uint8_t *bytes = take_counted(rest, &len);
  if (!bytes) return fails_for(EINVAL);
  int file = kind[1] == 'D' ? db->db : db->log;
  switch (kind[0]) {
    case 'W': return write_all(file, bytes, len, place);
    case 'C': return ftruncate(file, (off_t)place) == 0;
    default: return fdatasync(file) == 0;
  }
}

/* Carries out the changes that the engine noted. Where one fails no further one is carried out, and the database counts as failed. */
static bool carry_out(kinolavust *db) {
  size_t len = kinolavust_session_journal_len(db->it, &db->it);
  if (len == 0) return true;
  uint8_t *changes = malloc(len);
  bool ok = changes && kinolavust_session_journal(db->it, changes, len, &db->it);
  for (part rest = {changes, ok ? changes + len : NULL}; ok && rest.at < rest.end;) ok = carry_out_change(db, &rest);
  int why = errno;
  free(changes);
  errno = why;
  db->has_failed = !ok;
  return ok;
}

/* ---- opening */

static bool open_file(const char *path, const char *ending, int *file) {
  char *name;
  if (asprintf(&name, "%s%s", path, ending) < 0) return fails_for(ENOMEM);
  *file = open(name, O_RDWR | O_CREAT | O_CLOEXEC, 0644);
  int why = errno;
  free(name);
  errno = why;
  return *file >= 0;
}

/* Syncs the folder of a file, so that a crash doesn't lose the names of the two files. */
static bool sync_folder(const char *path) {
  const char *slash = strrchr(path, '/');
  char *name = slash ? strndup(path, (size_t)(slash - path) + 1) : strdup(".");
  int folder = name ? open(name, O_RDONLY | O_DIRECTORY | O_CLOEXEC) : -1;
  bool ok = folder >= 0 && fsync(folder) == 0;
  int why = errno;
  if (folder >= 0) close(folder);
  free(name);
  errno = why;
  return ok;
}

/* Opens both files, for this process alone. */
static bool open_files(kinolavust *db, const char *path) {
  return open_file(path, "", &db->db) && flock(db->db, LOCK_EX | LOCK_NB) == 0 && open_file(path, "-wal", &db->log) &&
         sync_folder(path) && fdatasync(db->db) == 0 && fdatasync(db->log) == 0;
}

static int open_session(kinolavust *db, const kinolavust_options *options, const uint8_t *bytes, size_t len,
                        const uint8_t *log, size_t log_len) {
  uint32_t page_size = options && options->page_size ? options->page_size : DEFAULT_PAGE_SIZE;
  uint64_t salts = options && options->salts ? options->salts : DEFAULT_SALTS;
  uint8_t refusal[REFUSAL_LEN] = {0};
  uint32_t number = kinolavust_session_open(bytes, len, log, log_len, page_size, (uint32_t)(salts >> 32), (uint32_t)salts,
                                            refusal, sizeof refusal, &db->it);
  return number ? refuse_as(db, (int)number, refusal, sizeof refusal) : 0;
}

static int refuse_errno(kinolavust *db, const char *path) {
  if (errno == ENOMEM) return refuse_memory(db);
  if (errno == EWOULDBLOCK) return refuse(db, BUSY, "%s: another process has the database open", path);
  return refuse(db, IO, "%s: %s", path, strerror(errno));
}

static int open_database(kinolavust *db, const char *path, const kinolavust_options *options) {
  uint8_t *bytes = NULL, *log = NULL;
  size_t len, log_len;
  int refused = 0;
  if (open_files(db, path) && read_file(db->db, &bytes, &len) && read_file(db->log, &log, &log_len))
    refused = open_session(db, options, bytes, len, log, log_len);
  else
    refused = refuse_errno(db, path);
  free(bytes);
  free(log);
  if (!refused && !carry_out(db)) refused = refuse_errno(db, path);
  return refused;
}

int kinolavust_open(const char *path, const kinolavust_options *options, kinolavust **out) {
  if (!out) return MISUSE;
  kinolavust *db = *out = calloc(1, sizeof *db);
  if (!db) return MEMORY;
  db->db = db->log = -1;
  db->thread = pthread_self();
  if (!path || !*path) return refuse(db, MISUSE, "a database has a name");
  return open_database(db, path, options);
}

static void leave_statements(kinolavust *db);

void kinolavust_close(kinolavust *db) {
  if (!db || !pthread_equal(db->thread, pthread_self())) return;
  leave_statements(db);
  if (db->it.at) kinolavust_session_close(db->it);
  if (db->log >= 0) close(db->log);
  if (db->db >= 0) close(db->db);
  forget_refusal(db);
  free(db);
}

/* ---- rows */

typedef struct { const uint8_t *bytes; size_t len; int64_t number; int kind; } value;

struct kinolavust_rows {
  uint8_t *reply;
  size_t row_count;
  size_t *first; /* of each row its first value's place, and after the last row the count of values */
  value *values;
};

static value take_value(part *rest) {
  const uint8_t *kind = take(rest, 1);
  value it = {NULL, 0, 0, kind ? *kind : KINOLAVUST_NULL};
  if (it.kind == KINOLAVUST_INTEGER) it.number = (int64_t)take_number(rest);
  if (it.kind == KINOLAVUST_TEXT || it.kind == KINOLAVUST_BLOB) it.bytes = take_counted(rest, &it.len);
  return it;
}

/* Goes over the rows of a reply: counts them and their values, and notes these where there is room for them. */
static void go_over(kinolavust_rows *rows, size_t len, size_t *value_count) {
  size_t row = 0, place = 0;
  for (part rest = {rows->reply, rows->reply + len}; rest.at && rest.at < rest.end; row++) {
    if (rows->first) rows->first[row] = place;
    for (uint64_t left = take_number(&rest); rest.at && left > 0; left--, place++) {
      value it = take_value(&rest);
      if (rows->values) rows->values[place] = it;
    }
  }
  if (rows->first) rows->first[row] = place;
  rows->row_count = row;
  *value_count = place;
}

/* The rows of a reply without a byte: a statement that has changed the files needs no memory any more. */
static kinolavust_rows no_rows;

/* The rows of a reply, whose bytes they take over; NULL if there is no memory. Their places and values lie behind them. */
static kinolavust_rows *rows_of(uint8_t *reply, size_t len) {
  kinolavust_rows counted = {reply, 0, NULL, NULL};
  size_t value_count;
  go_over(&counted, len, &value_count);
  kinolavust_rows *rows = malloc(sizeof *rows + value_count * sizeof *rows->values + (counted.row_count + 1) * sizeof *rows->first);
  if (!rows) {
    free(reply);
    return NULL;
  }
  *rows = counted;
  rows->values = (value *)(rows + 1);
  rows->first = (size_t *)(rows->values + value_count);
  go_over(rows, len, &value_count);
  return rows;
}

size_t kinolavust_row_count(const kinolavust_rows *rows) { return rows ? rows->row_count : 0; }

size_t kinolavust_column_count(const kinolavust_rows *rows, size_t row) {
  return row < kinolavust_row_count(rows) ? rows->first[row + 1] - rows->first[row] : 0;
}

static value value_at(const kinolavust_rows *rows, size_t row, size_t column) {
  static const value none = {NULL, 0, 0, KINOLAVUST_NULL};
  return column < kinolavust_column_count(rows, row) ? rows->values[rows->first[row] + column] : none;
}

int kinolavust_kind(const kinolavust_rows *rows, size_t row, size_t column) { return value_at(rows, row, column).kind; }

int64_t kinolavust_integer(const kinolavust_rows *rows, size_t row, size_t column) {
  return value_at(rows, row, column).number;
}

const void *kinolavust_bytes(const kinolavust_rows *rows, size_t row, size_t column, size_t *len) {
  value it = value_at(rows, row, column);
  if (len) *len = it.len;
  return it.bytes;
}

void kinolavust_free(kinolavust_rows *rows) {
  if (!rows || rows == &no_rows) return;
  free(rows->reply);
  free(rows);
}

/* ---- statements */

/* How many bytes the reply to the last statement takes. */
static size_t reply_len(kinolavust *db) { return kinolavust_session_reply_len(db->it, &db->it); }

/* That reply, which takes so many bytes, or NULL if there is no memory. */
static uint8_t *reply_of(kinolavust *db, size_t len) {
  uint8_t *reply = malloc(len + 1);
  if (reply) kinolavust_session_reply(db->it, reply, len, &db->it);
  return reply;
}

/* Keeps the refusal of the last statement: where there is no memory, its number alone. */
static int refuse_statement(kinolavust *db, int number) {
  size_t len = reply_len(db);
  uint8_t *reply = reply_of(db, len);
  refuse_as(db, number, reply, reply ? len : 0);
  free(reply);
  return number;
}

/* Gives the rows of the last statement. */
static int give_rows(kinolavust *db, kinolavust_rows **out) {
  size_t len = reply_len(db);
  if (len == 0) {
    *out = &no_rows;
    return 0;
  }
  uint8_t *reply = reply_of(db, len);
  *out = reply ? rows_of(reply, len) : NULL;
  return *out ? 0 : refuse_memory(db);
}

/* Begins a call: 0, or why it is refused. */
static int begin_call(kinolavust *db) {
  if (!db || !pthread_equal(db->thread, pthread_self())) return MISUSE;
  if (!db->it.at) return refuse(db, MISUSE, "the database isn't open");
  if (db->has_failed) return refuse(db, FAILED, "an earlier write to the files failed: open the database again");
  forget_refusal(db);
  return 0;
}

/* Carries out what a statement has changed, and gives its rows, or keeps its refusal. */
static int end_call(kinolavust *db, uint32_t refused, kinolavust_rows **out) {
  if (!carry_out(db)) return refuse(db, IO, "a write to the files failed: %s", strerror(errno));
  if (refused) return refuse_statement(db, (int)refused);
  return out ? give_rows(db, out) : 0;
}

int kinolavust_execute(kinolavust *db, unsigned connection, const char *sql, size_t len, kinolavust_rows **out) {
  if (out) *out = NULL;
  int number = begin_call(db);
  if (number) return number;
  const char *text = sql ? sql : "";
  uint32_t refused = kinolavust_session_execute(db->it, connection, (const uint8_t *)text, sql ? len : 0, &db->it);
  return end_call(db, refused, out);
}

/* ---- parameters: the engine takes the quoted name "?1" for the first, so each is written as that */

/* A parameter: where it stands in a statement's text, where it was written, and its number. */
typedef struct { size_t at, len, written_at, written_len, number; } parameter;

/* The parameters of a text, in their order. */
typedef struct {
  char *sql;
  size_t len;
  parameter *all;
  size_t count, greatest;
} parameters;

static bool is_of_word(char byte) {
  unsigned char it = (unsigned char)byte;
  return (it >= 'a' && it <= 'z') || (it >= 'A' && it <= 'Z') || (it >= '0' && it <= '9') || it == '_' || it == '$' || it >= 0x80;
}

/* The bytes of a word from a place on. */
static size_t word_len(const char *sql, size_t len, size_t at) {
  size_t end = at;
  while (end < len && is_of_word(sql[end])) end++;
  return end - at;
}

/* The bytes from a place up to an ending, which is looked for after the first bytes; without one, all that are left. */
static size_t len_up_to(const char *sql, size_t len, size_t at, size_t first, const char *ending) {
  if (at + first > len) return len - at;
  const char *end = memmem(sql + at + first, len - at - first, ending, strlen(ending));
  return end ? (size_t)(end - sql) - at + strlen(ending) : len - at;
}

/* The bytes of what stands at a place and is no parameter: a quoted text, a comment, a word, or a byte. */
static size_t other_len(const char *sql, size_t len, size_t at) {
  char next = at + 1 < len ? sql[at + 1] : 0;
  size_t word = word_len(sql, len, at);
  switch (sql[at]) {
    case '\'': return len_up_to(sql, len, at, 1, "'");
    case '"': return len_up_to(sql, len, at, 1, "\"");
    case '`': return len_up_to(sql, len, at, 1, "`");
    case '[': return len_up_to(sql, len, at, 1, "]");
    case '-': return next == '-' ? len_up_to(sql, len, at, 2, "\n") : 1;
    case '/': return next == '*' ? len_up_to(sql, len, at, 2, "*/") : 1;
    default: return word ? word : 1;
  }
}

/* The number of an earlier parameter of this name, or 0. */
static size_t number_of_name(const parameters *it, const char *name, size_t len) {
  for (size_t i = 0; i < it->count; i++)
    if (it->all[i].len == len && memcmp(it->sql + it->all[i].at, name, len) == 0) return it->all[i].number;
  return 0;
}

/* The number N of ?N, or the next one of a ?. */
static size_t number_of_mark(const parameters *it, size_t at, size_t *len) {
  size_t number = 0, end = at + 1;
  for (; end < it->len && it->sql[end] >= '0' && it->sql[end] <= '9'; end++)
    if (number <= MAX_PARAMETERS) number = number * 10 + (size_t)(it->sql[end] - '0');
  *len = end - at;
  return *len == 1 ? it->greatest + 1 : number;
}

/* The parameter at a place: ?, ?N, :name, @name or $name. Its number is 0 where none stands there, and past 32,766. */
static parameter parameter_at(const parameters *it, size_t at) {
  parameter found = {at, 0, 0, 0, 0};
  char mark = it->sql[at];
  if (mark == '?') found.number = number_of_mark(it, at, &found.len);
  if (mark == ':' || mark == '@' || mark == '$') {
    found.len = 1 + word_len(it->sql, it->len, at + 1);
    size_t same = found.len > 1 ? number_of_name(it, it->sql + at, found.len) : 0;
    found.number = same ? same : found.len > 1 ? it->greatest + 1 : 0;
  }
  if (found.number > MAX_PARAMETERS) found.number = 0;
  return found;
}

/* Finds the parameters of a text. */
static void find_parameters(parameters *it) {
  for (size_t at = 0; at < it->len;) {
    parameter found = parameter_at(it, at);
    if (found.number) {
      it->all[it->count++] = found;
      if (found.number > it->greatest) it->greatest = found.number;
    }
    at += found.number ? found.len : other_len(it->sql, it->len, at);
  }
}

/* How many parameters a text has at most. (Of one that is too long they aren't looked for.) */
static size_t most_parameters(const char *sql, size_t len) {
  size_t count = 0;
  for (size_t at = 0; len <= MAX_STATEMENT_BYTES && at < len; at++) count += strchr("?:@$", sql[at]) && sql[at];
  return count;
}

/* Copies a text, and finds its parameters. Whether there was memory. */
static bool take_parameters(parameters *it, const char *sql, size_t len) {
  size_t most = most_parameters(sql, len);
  it->sql = copied((const uint8_t *)sql, len);
  it->len = len;
  it->all = calloc(most + 1, sizeof *it->all);
  if (!it->sql || !it->all) return false;
  if (most) find_parameters(it);
  return true;
}

static void leave_parameters(parameters *it) {
  free(it->sql);
  free(it->all);
}

/* The text with "?1", "?2" and so on for its parameters, apart from other quotes. NULL if there is no memory. */
static char *engine_text(parameters *it, size_t *len) {
  enum { MOST = sizeof " \"?32766\" " };
  char *text = malloc(it->len + it->count * MOST + 1);
  size_t begun = 0, end = 0;
  for (size_t i = 0; text && i < it->count; i++) {
    parameter *at = &it->all[i];
    memcpy(text + end, it->sql + begun, at->at - begun);
    end += at->at - begun;
    begun = at->at + at->len;
    at->written_at = end;
    const char *before = end && text[end - 1] == '"' ? " " : "", *after = begun < it->len && it->sql[begun] == '"' ? " " : "";
    at->written_len = (size_t)snprintf(text + end, MOST, "%s\"?%zu\"%s", before, at->number, after);
    end += at->written_len;
  }
  if (text) memcpy(text + end, it->sql + begun, it->len - begun);
  *len = end + it->len - begun;
  return text;
}

/* Where the text has what stands at a place of the text that the engine read. */
static uint64_t place_before(const parameters *it, uint64_t place) {
  uint64_t at = place;
  for (size_t i = 0; i < it->count && it->all[i].written_at <= place; i++) {
    const parameter *of = &it->all[i];
    if (place < of->written_at + of->written_len) return of->at;
    at = of->at + of->len + (place - of->written_at - of->written_len);
  }
  return at;
}

/* ---- prepared statements */

typedef struct { uint8_t *bytes; size_t len; int64_t number; int kind; } bound_value;

struct kinolavust_statement {
  kinolavust *db; /* NULL: it was closed */
  pthread_t thread;
  kinolavust_statement *before, *after; /* of the same database */
  parameters parameters;
  size_t slot, count;
  bound_value *values;
};

static void free_statement(kinolavust_statement *it) {
  for (size_t i = 0; it->values && i < it->count; i++) free(it->values[i].bytes);
  free(it->values);
  leave_parameters(&it->parameters);
  free(it);
}

static void link_statement(kinolavust *db, kinolavust_statement *it) {
  it->after = db->statements;
  if (it->after) it->after->before = it;
  db->statements = it;
}

static void unlink_statement(kinolavust_statement *it) {
  if (it->after) it->after->before = it->before;
  if (it->before)
    it->before->after = it->after;
  else
    it->db->statements = it->after;
}

/* The statements of a database that is closed are there until they are finished. */
static void leave_statements(kinolavust *db) {
  for (kinolavust_statement *it = db->statements; it; it = it->after) it->db = NULL;
}

/* Keeps the refusal of a statement that was to be prepared: its place is one of the text as it was given. */
static int refuse_text(kinolavust *db, int number, const parameters *it) {
  refuse_statement(db, number);
  if (number != SYNTAX || it->count == 0) return number;
  uint64_t place = place_before(it, db->place);
  refuse(db, SYNTAX, "syntax error at byte %llu", (unsigned long long)place);
  db->place = place;
  return number;
}

/* Has the engine read the statement, into a slot. */
static int fill_slot(kinolavust *db, kinolavust_statement *it) {
  size_t len;
  char *text = engine_text(&it->parameters, &len);
  if (!text) return refuse_memory(db);
  uint32_t refused = kinolavust_session_prepare(db->it, (const uint8_t *)text, len, &it->slot, &it->count, &db->it);
  free(text);
  return refused ? refuse_text(db, (int)refused, &it->parameters) : 0;
}

/* Makes room for the values of a statement that has its slot. */
static int make_places(kinolavust *db, kinolavust_statement *it) {
  if (it->parameters.greatest > it->count) return refuse(db, MISUSE, "a parameter stands where no value may");
  it->values = calloc(it->count + 1, sizeof *it->values);
  return it->values ? 0 : refuse_memory(db);
}

static int prepare(kinolavust *db, kinolavust_statement *it, const char *sql, size_t len) {
  it->db = db;
  it->thread = db->thread;
  if (!take_parameters(&it->parameters, sql, len)) return refuse_memory(db);
  int refused = fill_slot(db, it);
  if (refused) return refused;
  refused = make_places(db, it);
  if (refused) kinolavust_session_finish(db->it, it->slot, &db->it);
  return refused;
}

int kinolavust_prepare(kinolavust *db, const char *sql, size_t len, kinolavust_statement **out) {
  if (out) *out = NULL;
  int refused = begin_call(db);
  if (refused) return refused;
  if (!out) return refuse(db, MISUSE, "a statement is given to its caller");
  kinolavust_statement *it = calloc(1, sizeof *it);
  if (!it) return refuse_memory(db);
  refused = prepare(db, it, sql ? sql : "", sql ? len : 0);
  if (refused) {
    free_statement(it);
    return refused;
  }
  link_statement(db, it);
  *out = it;
  return 0;
}

size_t kinolavust_parameter_count(const kinolavust_statement *it) { return it ? it->count : 0; }

const char *kinolavust_parameter_name(const kinolavust_statement *it, size_t place, size_t *len) {
  if (len) *len = 0;
  for (size_t i = 0; it && i < it->parameters.count; i++) {
    const parameter *at = &it->parameters.all[i];
    if (at->number != place || at->len == 1) continue;
    if (len) *len = at->len;
    return it->parameters.sql + at->at;
  }
  return NULL;
}

size_t kinolavust_parameter_place(const kinolavust_statement *it, const char *name, size_t len) {
  return it && name && len > 1 ? number_of_name(&it->parameters, name, len) : 0;
}

/* The value of a place, to be given anew; NULL where it is refused. */
static bound_value *value_of_place(kinolavust_statement *it, size_t place) {
  if (!it || !it->db || !pthread_equal(it->thread, pthread_self())) return NULL;
  forget_refusal(it->db);
  if (place >= 1 && place <= it->count) return &it->values[place - 1];
  refuse(it->db, MISUSE, "the statement has no parameter %zu", place);
  return NULL;
}

static int bind_number(kinolavust_statement *it, size_t place, int kind, int64_t number) {
  bound_value *to = value_of_place(it, place);
  if (!to) return MISUSE;
  free(to->bytes);
  *to = (bound_value){NULL, 0, number, kind};
  return 0;
}

static int bind_bytes(kinolavust_statement *it, size_t place, int kind, const void *bytes, size_t len) {
  if (!bytes) return bind_number(it, place, KINOLAVUST_NULL, 0);
  bound_value *to = value_of_place(it, place);
  if (!to) return MISUSE;
  uint8_t *copy = (uint8_t *)copied(bytes, len);
  if (!copy) return refuse_memory(it->db);
  free(to->bytes);
  *to = (bound_value){copy, len, 0, kind};
  return 0;
}

int kinolavust_bind_null(kinolavust_statement *it, size_t place) { return bind_number(it, place, KINOLAVUST_NULL, 0); }

int kinolavust_bind_integer(kinolavust_statement *it, size_t place, int64_t number) {
  return bind_number(it, place, KINOLAVUST_INTEGER, number);
}

int kinolavust_bind_text(kinolavust_statement *it, size_t place, const char *text, size_t len) {
  return bind_bytes(it, place, KINOLAVUST_TEXT, text, len);
}

int kinolavust_bind_blob(kinolavust_statement *it, size_t place, const void *bytes, size_t len) {
  return bind_bytes(it, place, KINOLAVUST_BLOB, bytes, len);
}

/* How many bytes a value takes: its kind, and its number, or its count and its bytes. */
static size_t value_len(const bound_value *it) { return it->kind == KINOLAVUST_NULL ? 1 : it->bytes ? 9 + it->len : 9; }

static uint8_t *put_number(uint8_t *at, uint64_t number) {
  for (int bits = 56; bits >= 0; bits -= 8) *at++ = (uint8_t)(number >> bits);
  return at;
}

static uint8_t *put_value(uint8_t *at, const bound_value *it) {
  *at++ = (uint8_t)it->kind;
  if (it->kind == KINOLAVUST_NULL) return at;
  if (!it->bytes) return put_number(at, (uint64_t)it->number);
  at = put_number(at, it->len);
  memcpy(at, it->bytes, it->len);
  return at + it->len;
}

/* The values of a statement as bytes; NULL if there is no memory. */
static uint8_t *bytes_of_values(const kinolavust_statement *it, size_t *len) {
  *len = 0;
  for (size_t i = 0; i < it->count; i++) *len += value_len(&it->values[i]);
  uint8_t *bytes = malloc(*len + 1), *end = bytes;
  for (size_t i = 0; bytes && i < it->count; i++) end = put_value(end, &it->values[i]);
  return bytes;
}

int kinolavust_run(kinolavust_statement *it, unsigned connection, kinolavust_rows **out) {
  if (out) *out = NULL;
  int number = it && pthread_equal(it->thread, pthread_self()) ? begin_call(it->db) : MISUSE;
  if (number) return number;
  kinolavust *db = it->db;
  size_t len;
  uint8_t *values = bytes_of_values(it, &len);
  if (!values) return refuse_memory(db);
  uint32_t refused = kinolavust_session_run(db->it, connection, it->slot, values, len, &db->it);
  free(values);
  return end_call(db, refused, out);
}

void kinolavust_finish(kinolavust_statement *it) {
  if (!it || !pthread_equal(it->thread, pthread_self())) return;
  kinolavust *db = it->db;
  if (db) {
    kinolavust_session_finish(db->it, it->slot, &db->it);
    unlink_statement(it);
  }
  free_statement(it);
}
