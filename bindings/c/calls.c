/* The calls of kinolavust.h beside what the header says of them. Ends with 'calls: N passed, N failed'. */
#include "kinolavust.h"
#include <pthread.h>
#include <stdio.h>
#include <string.h>

static int passed, failed;

static void check(int holds, const char *what) {
  passed += holds;
  failed += !holds;
  if (!holds) printf("calls: not so: %s\n", what);
}
#define CHECK(it) check(it, #it)

static int run(kinolavust *db, unsigned connection, const char *sql) {
  return kinolavust_execute(db, connection, sql, strlen(sql), NULL);
}

static void *from_another_thread(void *db) {
  return run(db, 1, "SELECT 1") == 11 ? db : NULL;
}

static void values(kinolavust *db) {
  static const char sql[] = "SELECT 'a\0b', X'00FF', -9223372036854775807 - 1, NULL, ''";
  kinolavust_rows *rows;
  size_t len;
  CHECK(kinolavust_execute(db, 1, sql, sizeof sql - 1, &rows) == KINOLAVUST_OK);
  CHECK(kinolavust_row_count(rows) == 1 && kinolavust_column_count(rows, 0) == 5);
  CHECK(kinolavust_kind(rows, 0, 0) == KINOLAVUST_TEXT);
  CHECK(memcmp(kinolavust_bytes(rows, 0, 0, &len), "a\0b", 3) == 0 && len == 3);
  CHECK(kinolavust_kind(rows, 0, 1) == KINOLAVUST_BLOB);
  CHECK(memcmp(kinolavust_bytes(rows, 0, 1, &len), "\0\xff", 2) == 0 && len == 2);
  CHECK(kinolavust_kind(rows, 0, 2) == KINOLAVUST_INTEGER && kinolavust_integer(rows, 0, 2) == INT64_MIN);
  CHECK(kinolavust_bytes(rows, 0, 2, &len) == NULL && len == 0);
  CHECK(kinolavust_kind(rows, 0, 3) == KINOLAVUST_NULL && kinolavust_integer(rows, 0, 3) == 0);
  CHECK(kinolavust_kind(rows, 0, 4) == KINOLAVUST_TEXT && kinolavust_bytes(rows, 0, 4, &len) != NULL && len == 0);
  CHECK(kinolavust_kind(rows, 0, 5) == KINOLAVUST_NULL && kinolavust_kind(rows, 1, 0) == KINOLAVUST_NULL);
  CHECK(kinolavust_column_count(rows, 1) == 0);
  kinolavust_free(rows);
}

static void refusals(kinolavust *db) {
  kinolavust_rows *rows = (kinolavust_rows *)&passed;
  size_t len;
  CHECK(run(db, 1, "SELECT FROM t") == 7 && kinolavust_refusal(db) == 7 && kinolavust_place(db) == 7);
  CHECK(kinolavust_execute(db, 1, "SELECT x FROM t", 15, &rows) == 8 && rows == NULL);
  CHECK(strcmp(kinolavust_subject(db, &len), "x") == 0 && len == 1);
  CHECK(strcmp(kinolavust_name(8), "NoSuch") == 0 && strcmp(kinolavust_message(db), "no such column: x") == 0);
  CHECK(run(db, 1, "SELECT 1") == 0 && kinolavust_refusal(db) == 0 && *kinolavust_message(db) == 0);
  CHECK(run(db, 0, "SELECT 1") == 11 && run(db, 17, "SELECT 1") == 11 && run(db, 4294967295u, "SELECT 1") == 11);
  CHECK(run(db, 1, "SELECT '\xff'") == 11);
  CHECK(kinolavust_execute(db, 1, NULL, 9, NULL) == 7 && run(db, 1, "") == 7);
  CHECK(strcmp(kinolavust_name(-1), "unknown") == 0 && strcmp(kinolavust_name(31), "unknown") == 0);
}

/* An expression may have a depth of 100. */
static void depth(kinolavust *db) {
  char sql[1000] = "SELECT ";
  for (int i = 0; i < 99; i++) strcat(sql, "NOT ");
  CHECK(run(db, 1, strcat(sql, "1")) == 0);
  sql[strlen(sql) - 1] = 0;
  CHECK(run(db, 1, strcat(sql, "NOT 1")) == 25);
}

static void nothing(void) {
  CHECK(kinolavust_execute(NULL, 1, "SELECT 1", 8, NULL) == 11);
  CHECK(kinolavust_row_count(NULL) == 0 && kinolavust_column_count(NULL, 0) == 0 && kinolavust_kind(NULL, 0, 0) == KINOLAVUST_NULL);
  CHECK(kinolavust_bytes(NULL, 0, 0, NULL) == NULL && kinolavust_refusal(NULL) == 1 && *kinolavust_message(NULL) != 0);
  CHECK(kinolavust_place(NULL) == 0 && *kinolavust_subject(NULL, NULL) == 0 && kinolavust_open("x", NULL, NULL) == 11);
  kinolavust_free(NULL);
  kinolavust_close(NULL);
}

static void connections(kinolavust *db) {
  CHECK(run(db, 1, "BEGIN") == 0 && run(db, 1, "INSERT INTO t VALUES (2)") == 0);
  CHECK(run(db, 2, "INSERT INTO t VALUES (3)") == 12 && run(db, 1, "ROLLBACK") == 0);
  CHECK(run(db, 1, "ROLLBACK") == 14);
}

static void opening(const char *path) {
  kinolavust *db, *second;
  kinolavust_options options = {1024, 0};
  CHECK(kinolavust_open("/nowhere/x.db", NULL, &second) == 2 && strstr(kinolavust_message(second), "/nowhere/x.db"));
  CHECK(run(second, 1, "SELECT 1") == 11);
  kinolavust_close(second);
  CHECK(kinolavust_open("", NULL, &second) == 11);
  kinolavust_close(second);
  options.page_size = 1000;
  CHECK(kinolavust_open(path, &options, &second) == 4);
  kinolavust_close(second);
  options.page_size = 1024;
  CHECK(kinolavust_open(path, &options, &db) == 0);
  CHECK(kinolavust_open(path, NULL, &second) == 12);
  kinolavust_close(second);
  CHECK(run(db, 1, "CREATE TABLE t(a INTEGER)") == 0 && run(db, 1, "INSERT INTO t VALUES (1)") == 0);
  values(db);
  refusals(db);
  connections(db);
  depth(db);
  pthread_t thread;
  void *was_refused = NULL;
  CHECK(pthread_create(&thread, NULL, from_another_thread, db) == 0 && pthread_join(thread, &was_refused) == 0 && was_refused);
  kinolavust_close(db);
}

int main(int count, char **words) {
  if (count < 2) return 2;
  nothing();
  opening(words[1]);
  printf("calls: %d passed, %d failed\n", passed, failed);
  return failed > 0;
}
