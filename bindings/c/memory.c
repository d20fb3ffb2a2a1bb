/* Each allocation fails once, one in each round: the call under way answers E1, and the same call again is carried out, or E2, where a change
 * of the files found no memory; then opening again shows each row that was answered 0. A round executes texts, or prepares statements, gives
 * them values and runs them. Of statements that set triggers of each kind off too:
 * refused, they have changed nothing, neither their own table nor those that triggers change. Link it with --wrap of the three functions below.
 * Ends with 'memory: N passed, N failed'. */
#include "kinolavust.h"
#include <errno.h>
#include <inttypes.h>
#include <stdio.h>
#include <stdlib.h>
#include <string.h>
#include <unistd.h>

enum { MEMORY = 1, IO = 2, NO_SUCH = 8, NO_TRANSACTION = 14, RAISED = 20, FAILED = 28, ROWS = 4 };

static int passed, failed;

static long left;      /* allocations up to the one that fails; 0: none does */
static int has_failed; /* it has */

static int fails(void) {
  if (left == 0 || --left > 0) return 0;
  has_failed = 1;
  errno = ENOMEM;
  return 1;
}

extern void *__real_malloc(size_t len);
extern void *__real_calloc(size_t count, size_t len);
extern void *__real_realloc(void *old, size_t len);
extern void *__wrap_malloc(size_t len);
extern void *__wrap_calloc(size_t count, size_t len);
extern void *__wrap_realloc(void *old, size_t len);
void *__wrap_malloc(size_t len) { return fails() ? NULL : __real_malloc(len); }
void *__wrap_calloc(size_t count, size_t len) { return fails() ? NULL : __real_calloc(count, len); }
void *__wrap_realloc(void *old, size_t len) { return fails() ? NULL : __real_realloc(old, len); }

/* Opens, and again where the first time an allocation failed. */
static kinolavust *opened(const char *path) {
  kinolavust *db;
  for (int times = 0; times < 2; times++) {
    int refused = kinolavust_open(path, NULL, &db);
    if (!refused) return db;
    kinolavust_close(db);
    if (refused != MEMORY && refused != IO) return NULL;
  }
  return NULL;
}

/* Executes a statement, and again where an allocation failed. */
static int run(kinolavust *db, const char *sql, kinolavust_rows **rows) {
  int refused = kinolavust_execute(db, 1, sql, strlen(sql), rows);
  return refused == MEMORY ? kinolavust_execute(db, 1, sql, strlen(sql), rows) : refused;
}

static int64_t rows_of(const char *path) {
  kinolavust *db = opened(path);
  kinolavust_rows *rows = NULL;
  int64_t count = db && run(db, "SELECT count(*) FROM t", &rows) == 0 ? kinolavust_integer(rows, 0, 0) : -1;
  kinolavust_free(rows);
  kinolavust_close(db);
  return count;
}

/* Prepares a statement, and again where an allocation failed. */
static int prepare(kinolavust *db, const char *sql, kinolavust_statement **it) {
  int refused = kinolavust_prepare(db, sql, strlen(sql), it);
  return refused == MEMORY ? kinolavust_prepare(db, sql, strlen(sql), it) : refused;
}

/* Gives a statement values, and runs it, each again where an allocation failed. */
static int run_with(kinolavust_statement *it, const char *text, kinolavust_rows **rows) {
  int refused = kinolavust_bind_integer(it, 1, 1);
  if (!refused) refused = kinolavust_bind_text(it, 2, text, strlen(text));
  if (refused == MEMORY) refused = kinolavust_bind_text(it, 2, text, strlen(text));
  if (!refused) refused = kinolavust_run(it, 1, rows);
  return refused == MEMORY ? kinolavust_run(it, 1, rows) : refused;
}

/* The two calls of a round, by texts or by statements that are prepared for each. */
static int insert(kinolavust *db, int is_prepared) {
  if (!is_prepared) return run(db, "INSERT INTO t VALUES (1, 'some text')", NULL);
  kinolavust_statement *it;
  int refused = prepare(db, "INSERT INTO t VALUES (?, :text)", &it);
  if (!refused) refused = run_with(it, "some text", NULL);
  kinolavust_finish(it);
  return refused;
}

static int query(kinolavust *db, int is_prepared, kinolavust_rows **rows) {
  if (!is_prepared) return run(db, "SELECT a, b FROM t", rows);
  kinolavust_statement *it;
  int refused = prepare(db, "SELECT a, b FROM t WHERE a = ? AND b = ?", &it);
  if (!refused) refused = run_with(it, "some text", rows);
  kinolavust_finish(it);
  return refused;
}

/* A round. Whether it went as the head of this file says. */
static int is_well(const char *path, int is_prepared) {
  kinolavust *db = opened(path);
  if (!db) return 0;
  int64_t answered = 0, under_way = 0;
  int refused = run(db, "CREATE TABLE t(a INTEGER, b TEXT)", NULL);
  for (int row = 0; row < ROWS && !refused; row++) {
    refused = insert(db, is_prepared);
    answered += refused == 0;
    under_way = refused == IO;
  }
  kinolavust_rows *rows = NULL;
  int asked = query(db, is_prepared, &rows);
  int holds = refused == IO ? asked == FAILED || asked == 0 || asked == NO_SUCH
                            : refused == 0 && asked == 0 && kinolavust_row_count(rows) == ROWS;
  kinolavust_free(rows);
  kinolavust_close(db);
  left = 0;
  /* (where the table itself was under way, it may be missing) */
  int64_t found = rows_of(path);
  return holds && (found == answered || found == answered + under_way || (refused && answered == 0 && found == -1));
}

static const char *const SCHEMA[] = {
    "CREATE TABLE t(id INTEGER PRIMARY KEY, n INTEGER)",
    "CREATE TABLE log(what, id, n)",
    "CREATE TABLE sums(s INTEGER)",
    "CREATE VIEW v AS SELECT id, n FROM t WHERE n > 1",
    "CREATE VIEW many AS SELECT count(*) AS c FROM t",
    "CREATE VIEW shown AS SELECT s.s, m.c, l.what, l.id, l.n, t.n AS now FROM sums AS s, many AS m, log AS l LEFT JOIN t ON t.id = l.id",
    "CREATE TRIGGER much BEFORE INSERT ON t WHEN NEW.n > 90 BEGIN SELECT RAISE(ABORT, 'much'); END",
    "CREATE TRIGGER comes AFTER INSERT ON t BEGIN INSERT INTO log VALUES ('in', NEW.id, NEW.n); UPDATE sums SET s = s + NEW.n; END",
    "CREATE TRIGGER less BEFORE UPDATE ON t WHEN NEW.n < 0 BEGIN SELECT RAISE(ROLLBACK, 'less'); END",
    "CREATE TRIGGER turns AFTER UPDATE OF n ON t WHEN NEW.n <> OLD.n BEGIN UPDATE log SET n = NEW.n WHERE id = NEW.id; UPDATE sums SET s = s + NEW.n - OLD.n; END",
    "CREATE TRIGGER goes BEFORE DELETE ON t BEGIN INSERT INTO log VALUES ('out', OLD.id, OLD.n); UPDATE sums SET s = s - OLD.n; END",
    "CREATE TRIGGER puts INSTEAD OF INSERT ON v BEGIN INSERT INTO t VALUES (NEW.id, NEW.n * 10); END",
    "CREATE TRIGGER sets INSTEAD OF UPDATE OF n ON v BEGIN UPDATE t SET n = NEW.n WHERE id = OLD.id; END",
    "CREATE TRIGGER takes INSTEAD OF DELETE ON v WHEN OLD.n < 20 BEGIN DELETE FROM t WHERE id = OLD.id; END",
    "INSERT INTO sums VALUES (0)",
};

/* A statement, the refusal that it comes to or 0, and what the view `shown` has afterwards. */
typedef struct {
  const char *sql;
  int refused;
  const char *shown;
} Step;

static const Step STEPS[] = {
    {"BEGIN", 0, ""},
    {"INSERT INTO t VALUES (2, 7), (3, 8)", 0, "15 2 in 2 7 7 15 2 in 3 8 8 "},
    {"INSERT INTO t VALUES (4, 1), (5, 99)", RAISED, "15 2 in 2 7 7 15 2 in 3 8 8 "},
    {"UPDATE t SET n = n + 1 WHERE id > 2", 0, "16 2 in 2 7 7 16 2 in 3 9 9 "},
    {"INSERT INTO v VALUES (4, 4)", 0, "56 3 in 2 7 7 56 3 in 3 9 9 56 3 in 4 40 40 "},
    {"UPDATE v SET n = n * 2 WHERE id = 2", 0, "63 3 in 2 14 14 63 3 in 3 9 9 63 3 in 4 40 40 "},
    {"DELETE FROM v", 0, "40 1 in 2 14 - 40 1 in 3 9 - 40 1 in 4 40 40 40 1 out 2 14 - 40 1 out 3 9 - "},
    {"SAVEPOINT s", 0, "40 1 in 2 14 - 40 1 in 3 9 - 40 1 in 4 40 40 40 1 out 2 14 - 40 1 out 3 9 - "},
    {"INSERT INTO t VALUES (8, 2)", 0, "42 2 in 2 14 - 42 2 in 3 9 - 42 2 in 4 40 40 42 2 out 2 14 - 42 2 out 3 9 - 42 2 in 8 2 2 "},
    {"UPDATE t SET n = n - 3", RAISED, ""},
    {"COMMIT", NO_TRANSACTION, ""},
};

/* Whether the view `shown` has these values, with a space after each, and - for NULL. */
static int shows(kinolavust *db, const char *wanted) {
  char found[512];
  size_t len = 0;
  kinolavust_rows *rows = NULL;
  if (run(db, "SELECT * FROM shown", &rows)) return 0;
  found[0] = 0;
  for (size_t row = 0; row < kinolavust_row_count(rows); row++)
    for (size_t column = 0; column < kinolavust_column_count(rows, row) && len < sizeof found; column++) {
      size_t bytes;
      const char *text = kinolavust_bytes(rows, row, column, &bytes);
      if (kinolavust_kind(rows, row, column) == KINOLAVUST_INTEGER)
        len += (size_t)snprintf(found + len, sizeof found - len, "%" PRId64 " ", kinolavust_integer(rows, row, column));
      else
        len += (size_t)snprintf(found + len, sizeof found - len, "%.*s ", text ? (int)bytes : 1, text ? text : "-");
    }
  kinolavust_free(rows);
  return strcmp(found, wanted) == 0;
}

static void judge(int holds, const char *sql, long allocation) {
  if (holds) {
    passed++;
  } else {
    failed++;
    printf("memory: %s: allocation %ld\n", sql, allocation);
  }
}

/* Whether a step changes rows, and can be taken back. */
static int is_change(const Step *step) {
  return step->refused == 0 && strncmp(step->sql, "BEGIN", 5) != 0 && strncmp(step->sql, "SAVEPOINT", 9) != 0;
}

/* Executes a statement again and again, each time with the next allocation failing, until it comes to its end without one; until then the tables
 * are as they were before it. (What is kept of a refusal may lack memory: so one that is refused in the end may have had an allocation that failed.
 * And where a shorter way lacks memory, a change may go a longer one: then it is taken back, and tried with the next allocation.) */
static void fail_each(kinolavust *db, const Step *step, const char *before) {
  int is_over = 0;
  for (long allocation = 1; !is_over && failed < 10; allocation++) {
    if (is_change(step)) judge(run(db, "SAVEPOINT again", NULL) == 0, step->sql, 0);
    has_failed = 0;
    left = allocation;
    int refused = kinolavust_execute(db, 1, step->sql, strlen(step->sql), NULL);
    left = 0;
    int is_made_up = has_failed && refused == 0 && is_change(step);
    if (refused == MEMORY)
      judge(has_failed && shows(db, before), step->sql, allocation);
    else
      judge((!has_failed || refused || is_made_up) && refused == step->refused && shows(db, step->shown), step->sql, allocation);
    is_over = refused != MEMORY && !is_made_up;
    if (is_made_up) judge(run(db, "ROLLBACK TO again", NULL) == 0 && shows(db, before), step->sql, allocation);
    if (is_change(step)) judge(run(db, "RELEASE again", NULL) == 0, step->sql, allocation);
  }
}

static void programs(const char *path) {
  kinolavust *db = opened(path);
  for (size_t at = 0; at < sizeof SCHEMA / sizeof *SCHEMA; at++) judge(run(db, SCHEMA[at], NULL) == 0, SCHEMA[at], 0);
  const char *before = "";
  for (size_t at = 0; at < sizeof STEPS / sizeof *STEPS; at++) {
    fail_each(db, &STEPS[at], before);
    before = STEPS[at].shown;
  }
  kinolavust_close(db);
}

static void start_anew(const char *path, const char *log) {
  unlink(path);
  unlink(log);
}

/* Rounds until no allocation fails any more. */
static void rounds(const char *path, const char *log, int is_prepared) {
  long allocation = 0;
  do {
    start_anew(path, log);
    has_failed = 0;
    left = ++allocation;
    judge(is_well(path, is_prepared), is_prepared ? "a round of prepared statements" : "a round", allocation);
  } while (has_failed && failed < 10);
}

int main(int count, char **words) {
  if (count < 2) return 2;
  char log[4096];
  snprintf(log, sizeof log, "%s-wal", words[1]);
  rounds(words[1], log, 0);
  rounds(words[1], log, 1);
  start_anew(words[1], log);
  programs(words[1]);
  printf("memory: %d passed, %d failed\n", passed, failed);
  return failed > 0;
}
