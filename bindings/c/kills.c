/* A loop in which a process commits rows 1, 2, 3, .. and is killed at any moment: no commit that it was answered is lost, and no row
 * stands without those before it. Ends with 'kills: N passed, N failed'. */
#define _GNU_SOURCE
#include "kinolavust.h"
#include <signal.h>
#include <stdint.h>
#include <stdio.h>
#include <stdlib.h>
#include <string.h>
#include <sys/wait.h>
#include <unistd.h>

/* Commits rows after the last, and writes the number of each that was answered 0. */
static _Noreturn void commit_rows(const char *path, int64_t last, int answers) {
  kinolavust *db;
  if (kinolavust_open(path, NULL, &db)) _exit(1);
  for (int64_t row = last + 1;; row++) {
    char sql[100];
    int len = row % 50 == 0 ? snprintf(sql, sizeof sql, "PRAGMA wal_checkpoint") : 0;
    if (len && kinolavust_execute(db, 1, sql, (size_t)len, NULL)) _exit(1);
    len = snprintf(sql, sizeof sql, "INSERT INTO t VALUES (%lld)", (long long)row);
    if (kinolavust_execute(db, 1, sql, (size_t)len, NULL)) _exit(1);
    if (write(answers, &row, sizeof row) != sizeof row) _exit(1);
  }
}

/* Starts such a process, and kills it after some microseconds. Returns the last row that it was answered. */
static int64_t killed_after(const char *path, int64_t last, useconds_t microseconds) {
  int ends[2];
  if (pipe(ends) != 0) return INT64_MAX;
  pid_t child = fork();
  if (child == 0) commit_rows(path, last, ends[1]);
  close(ends[1]);
  usleep(microseconds);
  kill(child, SIGKILL);
  waitpid(child, NULL, 0);
  for (int64_t row; read(ends[0], &row, sizeof row) == sizeof row;) last = row;
  close(ends[0]);
  return last;
}

/* How many rows there are, and the greatest: -1 where the database can't be opened, or one before the greatest is missing. */
static int64_t rows_of(const char *path) {
  kinolavust *db;
  kinolavust_rows *rows = NULL;
  int64_t count = -1;
  if (kinolavust_open(path, NULL, &db) == 0 && kinolavust_execute(db, 1, "SELECT count(*), max(a) FROM t", 30, &rows) == 0) {
    count = kinolavust_integer(rows, 0, 0);
    if (count > 0 && kinolavust_integer(rows, 0, 1) != count) count = -1;
  }
  kinolavust_free(rows);
  kinolavust_close(db);
  return count;
}

int main(int count, char **words) {
  if (count < 3) return 2;
  int passed = 0, failed = 0;
  int64_t last = 0;
  kinolavust *db;
  if (kinolavust_open(words[1], NULL, &db) || kinolavust_execute(db, 1, "CREATE TABLE t(a INTEGER)", 25, NULL)) return 1;
  kinolavust_close(db);
  srand(7);
  for (int time = 0; time < atoi(words[2]); time++) {
    int64_t answered = killed_after(words[1], last, (useconds_t)(rand() % 20000));
    last = rows_of(words[1]);
    /* (the one that was under way may be there too) */
    if (last == answered || last == answered + 1)
      passed++;
    else {
      failed++;
      printf("kills: %lld rows, and %lld were answered\n", (long long)last, (long long)answered);
    }
  }
  printf("kills: %d passed, %d failed (%lld rows)\n", passed, failed, (long long)last);
  return failed > 0;
}
