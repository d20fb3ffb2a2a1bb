/* Prepared statements beside what kinolavust.h says of them. The database is left with a table `kept`, whose rows bindings/check compares with
 * those that sqlite3 makes of the same values as literals. Ends with 'prepared: N passed, N failed'. */
#include "kinolavust.h"
#include <pthread.h>
#include <stdio.h>
#include <stdlib.h>
#include <string.h>

enum { SYNTAX = 7, NO_SUCH = 8, MISUSE = 11, TOO_LONG = 25, LARGE = 900000 };

static int passed, failed;

static void check(int holds, const char *what) {
  passed += holds;
  failed += !holds;
  if (!holds) printf("prepared: not so: %s\n", what);
}
#define CHECK(it) check(it, #it)

static int run(kinolavust *db, const char *sql) { return kinolavust_execute(db, 1, sql, strlen(sql), NULL); }

static kinolavust_statement *prepared(kinolavust *db, const char *sql) {
  kinolavust_statement *it;
  return kinolavust_prepare(db, sql, strlen(sql), &it) ? NULL : it;
}

static int refusal_of(kinolavust *db, const char *sql) {
  kinolavust_statement *it = (kinolavust_statement *)&passed;
  int refused = kinolavust_prepare(db, sql, strlen(sql), &it);
  return refused && it == NULL ? refused : -1;
}

/* Whether a statement's first value is this integer. */
static int answers(kinolavust_statement *it, unsigned connection, int64_t wanted) {
  kinolavust_rows *rows;
  int refused = kinolavust_run(it, connection, &rows);
  int holds = !refused && kinolavust_kind(rows, 0, 0) == KINOLAVUST_INTEGER && kinolavust_integer(rows, 0, 0) == wanted;
  kinolavust_free(rows);
  return holds;
}

/* Whether a statement's value in a column has this kind and these bytes. */
static int has_bytes(const kinolavust_rows *rows, size_t column, int kind, const void *bytes, size_t len) {
  size_t found;
  const void *at = kinolavust_bytes(rows, 0, column, &found);
  return kinolavust_kind(rows, 0, column) == kind && found == len && memcmp(at, bytes, len) == 0;
}

/* Values of each kind come back as they were bound, and stay bound. */
static void values(kinolavust *db) {
  kinolavust_statement *it = prepared(db, "SELECT ?, ?, ?, ?, ?, ?");
  kinolavust_rows *rows;
  CHECK(kinolavust_parameter_count(it) == 6);
  CHECK(kinolavust_bind_integer(it, 1, INT64_MIN) == 0 && kinolavust_bind_integer(it, 2, INT64_MAX) == 0);
  CHECK(kinolavust_bind_text(it, 3, "it's \0 \"ü\"", 11) == 0 && kinolavust_bind_blob(it, 4, "\0\xff'", 3) == 0);
  CHECK(kinolavust_bind_text(it, 5, "", 0) == 0);
  for (int time = 0; time < 2; time++) {
    CHECK(kinolavust_run(it, 1, &rows) == 0 && kinolavust_row_count(rows) == 1 && kinolavust_column_count(rows, 0) == 6);
    CHECK(kinolavust_integer(rows, 0, 0) == INT64_MIN && kinolavust_integer(rows, 0, 1) == INT64_MAX);
    CHECK(has_bytes(rows, 2, KINOLAVUST_TEXT, "it's \0 \"ü\"", 11) && has_bytes(rows, 3, KINOLAVUST_BLOB, "\0\xff'", 3));
    CHECK(has_bytes(rows, 4, KINOLAVUST_TEXT, "", 0) && kinolavust_kind(rows, 0, 5) == KINOLAVUST_NULL);
    kinolavust_free(rows);
  }
  CHECK(kinolavust_bind_blob(it, 1, NULL, 9) == 0 && kinolavust_bind_null(it, 2) == 0 && kinolavust_bind_blob(it, 3, "", 0) == 0);
  CHECK(kinolavust_run(it, 1, &rows) == 0 && kinolavust_kind(rows, 0, 0) == KINOLAVUST_NULL);
  CHECK(kinolavust_kind(rows, 0, 1) == KINOLAVUST_NULL && has_bytes(rows, 2, KINOLAVUST_BLOB, "", 0));
  kinolavust_free(rows);
  CHECK(kinolavust_bind_text(it, 1, "\xff", 1) == 0 && kinolavust_run(it, 1, &rows) == MISUSE && rows == NULL);
  kinolavust_finish(it);
}

/* Blobs that no literal can give. */
static void large(kinolavust *db) {
  static unsigned char bytes[LARGE + 100001];
  for (size_t at = 0; at < sizeof bytes; at++) bytes[at] = (unsigned char)(at * 7 + at / 256);
  CHECK(run(db, "CREATE TABLE large(id INTEGER PRIMARY KEY, b BLOB)") == 0);
  kinolavust_statement *it = prepared(db, "INSERT INTO large VALUES (?, ?)");
  kinolavust_statement *back = prepared(db, "SELECT b, length(b) FROM large WHERE id = ?");
  static const size_t lens[] = {40000, LARGE, 1000000};
  for (int64_t row = 0; row < 3; row++) {
    kinolavust_rows *rows = NULL;
    size_t len = lens[row];
    CHECK(kinolavust_bind_integer(it, 1, row) == 0 && kinolavust_bind_blob(it, 2, bytes, len) == 0 && kinolavust_run(it, 1, NULL) == 0);
    CHECK(kinolavust_bind_integer(back, 1, row) == 0 && kinolavust_run(back, 1, &rows) == 0);
    CHECK(has_bytes(rows, 0, KINOLAVUST_BLOB, bytes, len) && kinolavust_integer(rows, 0, 1) == (int64_t)len);
    kinolavust_free(rows);
  }
  CHECK(kinolavust_bind_integer(it, 1, 3) == 0 && kinolavust_bind_blob(it, 2, bytes, sizeof bytes) == 0);
  CHECK(kinolavust_run(it, 1, NULL) == TOO_LONG);
  kinolavust_finish(it);
  kinolavust_finish(back);
  CHECK(run(db, "DROP TABLE large") == 0);
}

static int count_of(kinolavust *db, const char *sql) {
  kinolavust_statement *it = prepared(db, sql);
  int count = it ? (int)kinolavust_parameter_count(it) : -1;
  kinolavust_finish(it);
  return count;
}

/* Which marks are parameters, and which place each takes. */
static void places(kinolavust *db) {
  CHECK(count_of(db, "SELECT '?', 'it''s ?' /* ? */ -- ?\n") == 0);
  CHECK(count_of(db, "SELECT ? AS\"?\", ?+?, '?' -- ?") == 3 && count_of(db, "SELECT'?'/* ? */") == 0);
  CHECK(count_of(db, "SELECT (?7), ?") == 8 && count_of(db, "SELECT ?32766") == 32766 && count_of(db, "SELECT \"?3\", ?") == 3);
  CHECK(count_of(db, "SELECT a$b FROM (SELECT 1)") == -1 && count_of(db, "SELECT :a + :b, @a, $a, :a") == 4);
  kinolavust_statement *it = prepared(db, "SELECT ?2 - ?1, :a, ?, :a");
  size_t len;
  CHECK(kinolavust_parameter_count(it) == 4 && kinolavust_bind_integer(it, 1, 3) == 0 && kinolavust_bind_integer(it, 2, 10) == 0);
  CHECK(answers(it, 1, 7));
  CHECK(memcmp(kinolavust_parameter_name(it, 3, &len), ":a", 2) == 0 && len == 2);
  CHECK(memcmp(kinolavust_parameter_name(it, 1, &len), "?1", 2) == 0 && len == 2);
  CHECK(kinolavust_parameter_name(it, 4, &len) == NULL && len == 0 && kinolavust_parameter_name(it, 9, NULL) == NULL);
  CHECK(kinolavust_parameter_place(it, ":a", 2) == 3 && kinolavust_parameter_place(it, "?2", 2) == 2);
  CHECK(kinolavust_parameter_place(it, "a", 1) == 0 && kinolavust_parameter_place(it, ":b", 2) == 0);
  CHECK(kinolavust_bind_null(it, 0) == MISUSE && kinolavust_bind_null(it, 5) == MISUSE && kinolavust_refusal(db) == MISUSE);
  CHECK(strcmp(kinolavust_message(db), "the statement has no parameter 5") == 0);
  CHECK(kinolavust_bind_null(it, 4) == 0 && kinolavust_refusal(db) == 0);
  kinolavust_finish(it);
}

/* A refusal's place is one of the text as it was given. */
static void refusals(kinolavust *db) {
  static char sql[70000];
  CHECK(refusal_of(db, "SELECT ?, ?, :name FROM") == SYNTAX && kinolavust_place(db) == 23);
  CHECK(strcmp(kinolavust_message(db), "syntax error at byte 23") == 0);
  CHECK(refusal_of(db, "SELECT ?32766 + ? FROM t") == SYNTAX && kinolavust_place(db) == 16);
  CHECK(refusal_of(db, "SELECT ?0") == SYNTAX && kinolavust_place(db) == 7);
  CHECK(refusal_of(db, "SELECT : a") == SYNTAX && refusal_of(db, "SELECT a FROM t LIMIT ?") == SYNTAX && kinolavust_place(db) == 22);
  CHECK(refusal_of(db, "INSERT INTO ? VALUES (1)") == MISUSE && refusal_of(db, "SELECT 1 AS ?") == MISUSE);
  CHECK(refusal_of(db, "SELECT ?\"a\"") == SYNTAX && kinolavust_place(db) == 8 && refusal_of(db, "SELECT [?]") == SYNTAX);
  CHECK(refusal_of(db, "BEGIN") == 4 && refusal_of(db, "CREATE TABLE u(a)") == 4 && refusal_of(db, "SELECT '\xff'") == MISUSE);
  CHECK(kinolavust_prepare(db, NULL, 9, NULL) == MISUSE && refusal_of(db, "") == SYNTAX);
  memset(sql, ' ', sizeof sql - 1);
  memcpy(sql, "SELECT ?", 8);
  CHECK(refusal_of(db, sql) == TOO_LONG);
}

/* Tables and columns are those of the moment of a run, on each connection. */
static void runs(kinolavust *db) {
  kinolavust_rows *rows = (kinolavust_rows *)&passed;
  CHECK(run(db, "CREATE TABLE t(a INTEGER)") == 0);
  kinolavust_statement *it = prepared(db, "INSERT INTO t VALUES (?)"), *count = prepared(db, "SELECT count(*) FROM t WHERE a >= :least");
  CHECK(kinolavust_bind_integer(count, 1, 0) == 0);
  CHECK(kinolavust_run(it, 0, NULL) == MISUSE && kinolavust_run(it, 17, NULL) == MISUSE);
  CHECK(run(db, "BEGIN") == 0 && kinolavust_bind_integer(it, 1, 5) == 0 && kinolavust_run(it, 1, NULL) == 0);
  CHECK(answers(count, 1, 1) && answers(count, 2, 0) && kinolavust_run(it, 2, NULL) == 12);
  CHECK(run(db, "COMMIT") == 0 && kinolavust_run(it, 2, NULL) == 0 && answers(count, 2, 2));
  CHECK(run(db, "DROP TABLE t") == 0 && kinolavust_run(it, 1, &rows) == NO_SUCH && rows == NULL);
  CHECK(strcmp(kinolavust_subject(db, NULL), "t") == 0);
  CHECK(run(db, "CREATE TABLE t(a INTEGER)") == 0 && kinolavust_run(it, 1, NULL) == 0 && answers(count, 3, 1));
  kinolavust_finish(it);
  /* (a slot is used again) */
  it = prepared(db, "DELETE FROM t WHERE a = ?");
  CHECK(kinolavust_bind_integer(it, 1, 5) == 0 && kinolavust_run(it, 1, NULL) == 0 && answers(count, 1, 0));
  kinolavust_finish(count);
  kinolavust_finish(it);
  CHECK(run(db, "DROP TABLE t") == 0);
}

/* Many statements at a time, finished in another order. */
static void many(kinolavust *db) {
  enum { COUNT = 300 };
  kinolavust_statement *all[COUNT];
  int well = 0;
  for (int i = 0; i < COUNT; i++) {
    char sql[100];
    snprintf(sql, sizeof sql, "SELECT %d + ?", i * 10);
    all[i] = prepared(db, sql);
    well += kinolavust_bind_integer(all[i], 1, i) == 0;
  }
  for (int i = 0; i < COUNT; i += 3) kinolavust_finish(all[i]);
  for (int i = 0; i < COUNT; i++) well += i % 3 == 0 || answers(all[i], 1, i * 11);
  for (int i = 0; i < COUNT; i += 3) all[i] = prepared(db, "SELECT 7");
  for (int i = 0; i < COUNT; i++) well += answers(all[i], 1, i % 3 ? i * 11 : 7);
  for (int i = COUNT; i > 0; i--) kinolavust_finish(all[i - 1]);
  CHECK(well == 3 * COUNT);
}

static void nothing(void) {
  CHECK(kinolavust_prepare(NULL, "SELECT 1", 8, NULL) == MISUSE && kinolavust_parameter_count(NULL) == 0);
  CHECK(kinolavust_parameter_name(NULL, 1, NULL) == NULL && kinolavust_parameter_place(NULL, ":a", 2) == 0);
  CHECK(kinolavust_bind_null(NULL, 1) == MISUSE && kinolavust_bind_integer(NULL, 1, 1) == MISUSE);
  CHECK(kinolavust_bind_text(NULL, 1, "", 0) == MISUSE && kinolavust_bind_blob(NULL, 1, "", 0) == MISUSE);
  CHECK(kinolavust_run(NULL, 1, NULL) == MISUSE);
  kinolavust_finish(NULL);
}

static void *from_another_thread(void *it) {
  int refused = kinolavust_run(it, 1, NULL) == MISUSE && kinolavust_bind_null(it, 1) == MISUSE;
  kinolavust_finish(it);
  return refused ? it : NULL;
}

static void threads(kinolavust *db) {
  kinolavust_statement *it = prepared(db, "SELECT ?");
  pthread_t thread;
  void *was_refused = NULL;
  CHECK(pthread_create(&thread, NULL, from_another_thread, it) == 0 && pthread_join(thread, &was_refused) == 0 && was_refused);
  CHECK(kinolavust_bind_integer(it, 1, 4) == 0 && answers(it, 1, 4));
  kinolavust_finish(it);
}

/* The rows that bindings/check compares. */
static void keep(kinolavust *db) {
  CHECK(run(db, "CREATE TABLE kept(id INTEGER PRIMARY KEY, a INTEGER, b)") == 0);
  kinolavust_statement *it = prepared(db, "INSERT INTO kept(a, b) VALUES (:a, :b)");
  CHECK(kinolavust_run(it, 1, NULL) == 0);
  CHECK(kinolavust_bind_integer(it, 1, INT64_MIN) == 0 && kinolavust_bind_text(it, 2, "it's", 4) == 0 && kinolavust_run(it, 1, NULL) == 0);
  CHECK(kinolavust_bind_integer(it, 1, INT64_MAX) == 0 && kinolavust_bind_blob(it, 2, "\0\xff", 2) == 0 && kinolavust_run(it, 1, NULL) == 0);
  CHECK(kinolavust_bind_text(it, 1, "12", 2) == 0 && kinolavust_bind_integer(it, 2, -7) == 0 && kinolavust_run(it, 1, NULL) == 0);
  CHECK(kinolavust_bind_null(it, 1) == 0 && kinolavust_bind_text(it, 2, "", 0) == 0 && kinolavust_run(it, 1, NULL) == 0);
  kinolavust_finish(it);
  it = prepared(db, "UPDATE kept SET b = ? WHERE a > ?");
  CHECK(kinolavust_bind_text(it, 1, "\"?\"", 3) == 0 && kinolavust_bind_integer(it, 2, 12) == 0 && kinolavust_run(it, 1, NULL) == 0);
  kinolavust_finish(it);
}

/* A statement outlives its database, and is of no use then. */
static void closing(kinolavust *db) {
  kinolavust_statement *first = prepared(db, "SELECT ?"), *second = prepared(db, "SELECT :a");
  CHECK(kinolavust_bind_text(first, 1, "some text", 9) == 0);
  kinolavust_close(db);
  CHECK(kinolavust_run(first, 1, NULL) == MISUSE && kinolavust_bind_null(second, 1) == MISUSE);
  CHECK(kinolavust_parameter_count(first) == 1 && kinolavust_parameter_place(second, ":a", 2) == 1);
  kinolavust_finish(second);
  kinolavust_finish(first);
}

int main(int count, char **words) {
  kinolavust *db;
  if (count < 2 || kinolavust_open(words[1], NULL, &db)) return 2;
  nothing();
  values(db);
  large(db);
  places(db);
  refusals(db);
  runs(db);
  many(db);
  threads(db);
  keep(db);
  closing(db);
  printf("prepared: %d passed, %d failed\n", passed, failed);
  return failed > 0;
}
