/* The same rows inserted in one transaction, by a prepared statement and by texts. Prints the times of both, and ends with
 * 'inserts: N passed, N failed'. */
#define _POSIX_C_SOURCE 200809L
#include "kinolavust.h"
#include <inttypes.h>
#include <stdio.h>
#include <stdlib.h>
#include <string.h>
#include <time.h>

static int run(kinolavust *db, const char *sql) { return kinolavust_execute(db, 1, sql, strlen(sql), NULL); }

static double now(void) {
  struct timespec it;
  clock_gettime(CLOCK_MONOTONIC, &it);
  return (double)it.tv_sec + (double)it.tv_nsec / 1e9;
}

static int by_texts(kinolavust *db, int64_t rows) {
  int refused = 0;
  for (int64_t row = 0; row < rows && !refused; row++) {
    char sql[100];
    snprintf(sql, sizeof sql, "INSERT INTO texts VALUES (%" PRId64 ", 'name %" PRId64 "')", row, row);
    refused = run(db, sql);
  }
  return refused;
}

static int by_statement(kinolavust *db, int64_t rows) {
  static const char sql[] = "INSERT INTO prepared VALUES (?, ?)";
  kinolavust_statement *it;
  int refused = kinolavust_prepare(db, sql, sizeof sql - 1, &it);
  for (int64_t row = 0; row < rows && !refused; row++) {
    char name[100];
    int len = snprintf(name, sizeof name, "name %" PRId64, row);
    refused = kinolavust_bind_integer(it, 1, row);
    if (!refused) refused = kinolavust_bind_text(it, 2, name, (size_t)len);
    if (!refused) refused = kinolavust_run(it, 1, NULL);
  }
  kinolavust_finish(it);
  return refused;
}

/* The seconds of a transaction; a negative number where it was refused. */
static double seconds(kinolavust *db, int insert(kinolavust *, int64_t), int64_t rows) {
  double begun = now();
  return run(db, "BEGIN") || insert(db, rows) || run(db, "COMMIT") ? -1 : now() - begun;
}

static int64_t number(kinolavust *db, const char *sql) {
  kinolavust_rows *rows = NULL;
  int64_t found = kinolavust_execute(db, 1, sql, strlen(sql), &rows) ? -1 : kinolavust_integer(rows, 0, 0);
  kinolavust_free(rows);
  return found;
}

int main(int count, char **words) {
  kinolavust *db;
  if (count < 3 || kinolavust_open(words[1], NULL, &db)) return 2;
  int64_t rows = atoll(words[2]);
  run(db, "CREATE TABLE texts(id INTEGER PRIMARY KEY, name TEXT)");
  run(db, "CREATE TABLE prepared(id INTEGER PRIMARY KEY, name TEXT)");
  double texts = seconds(db, by_texts, rows), prepared = seconds(db, by_statement, rows);
  int holds = texts >= 0 && prepared >= 0 && number(db, "SELECT count(*) FROM prepared") == rows &&
              number(db, "SELECT count(*) FROM texts AS t, prepared AS p WHERE t.id = p.id AND t.name = p.name") == rows;
  kinolavust_close(db);
  printf("inserts: %" PRId64 " by a prepared statement in %.2f s, by texts in %.2f s\n", rows, prepared, texts);
  printf("inserts: %d passed, %d failed\n", holds, !holds);
  return !holds;
}
