/* The processor times of rows inserted in one transaction, and of as many queries of one row by its rowid: by prepared statements,
 * and by texts. Prints a line of each, 'prepared: SECONDS SECONDS', for bench/bindings. */
#define _POSIX_C_SOURCE 200809L
#include "kinolavust.h"
#include <inttypes.h>
#include <stdbool.h>
#include <stdio.h>
#include <stdlib.h>
#include <string.h>
#include <time.h>

static double now(void) {
  struct timespec it;
  clock_gettime(CLOCK_PROCESS_CPUTIME_ID, &it);
  return (double)it.tv_sec + (double)it.tv_nsec / 1e9;
}

static bool run(kinolavust *db, const char *sql) { return kinolavust_execute(db, 1, sql, strlen(sql), NULL) == 0; }

/* Whether a reply is one row of a name. Frees it. */
static bool is_a_name(kinolavust_rows *rows) {
  size_t len;
  bool is = kinolavust_row_count(rows) == 1 && kinolavust_bytes(rows, 0, 0, &len) && len > strlen("name ");
  kinolavust_free(rows);
  return is;
}

static bool insert_by_texts(kinolavust *db, int64_t count) {
  bool holds = true;
  for (int64_t row = 0; row < count && holds; row++) {
    char sql[100];
    snprintf(sql, sizeof sql, "INSERT INTO texts VALUES (%" PRId64 ", 'name %" PRId64 "')", row, row);
    holds = run(db, sql);
  }
  return holds;
}

static bool query_by_texts(kinolavust *db, int64_t count) {
  bool holds = true;
  for (int64_t row = 0; row < count && holds; row++) {
    char sql[100];
    kinolavust_rows *rows;
    int len = snprintf(sql, sizeof sql, "SELECT b FROM texts WHERE a = %" PRId64, row);
    kinolavust_execute(db, 1, sql, (size_t)len, &rows);
    holds = is_a_name(rows);
  }
  return holds;
}

static bool insert_row(kinolavust_statement *it, int64_t row) {
  char name[100];
  int len = snprintf(name, sizeof name, "name %" PRId64, row);
  return kinolavust_bind_integer(it, 1, row) == 0 && kinolavust_bind_text(it, 2, name, (size_t)len) == 0 &&
         kinolavust_run(it, 1, NULL) == 0;
}

static bool query_row(kinolavust_statement *it, int64_t row) {
  kinolavust_rows *rows;
  kinolavust_bind_integer(it, 1, row);
  kinolavust_run(it, 1, &rows);
  return is_a_name(rows);
}

static bool run_prepared(kinolavust *db, const char *sql, bool run_row(kinolavust_statement *, int64_t), int64_t count) {
  kinolavust_statement *it;
  bool holds = kinolavust_prepare(db, sql, strlen(sql), &it) == 0;
  for (int64_t row = 0; row < count && holds; row++) holds = run_row(it, row);
  kinolavust_finish(it);
  return holds;
}

static bool insert_prepared(kinolavust *db, int64_t count) {
  return run_prepared(db, "INSERT INTO prepared VALUES (?, ?)", insert_row, count);
}

static bool query_prepared(kinolavust *db, int64_t count) {
  return run_prepared(db, "SELECT b FROM prepared WHERE a = ?", query_row, count);
}

/* Does both, and prints their times. */
static bool take_times(kinolavust *db, const char *way, bool insert(kinolavust *, int64_t), bool query(kinolavust *, int64_t),
                       int64_t count) {
  double begun = now();
  bool holds = run(db, "BEGIN") && insert(db, count) && run(db, "COMMIT");
  double inserted = now();
  holds = holds && query(db, count);
  printf("%s: %.3f %.3f\n", way, inserted - begun, now() - inserted);
  return holds;
}

int main(int count, char **words) {
  kinolavust *db;
  if (count < 3 || kinolavust_open(words[1], NULL, &db)) return 2;
  int64_t rows = atoll(words[2]);
  bool holds = run(db, "CREATE TABLE texts(a INTEGER PRIMARY KEY, b TEXT)") &&
               run(db, "CREATE TABLE prepared(a INTEGER PRIMARY KEY, b TEXT)") &&
               take_times(db, "prepared", insert_prepared, query_prepared, rows) &&
               take_times(db, "texts", insert_by_texts, query_by_texts, rows);
  kinolavust_close(db);
  return !holds;
}
