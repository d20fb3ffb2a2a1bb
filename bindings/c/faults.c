/* Commits 1, 2, 3, .. in rows of one table, the even ones by a prepared statement, with a checkpoint in the fifth place, says what each call
 * answered, and goes on after refusals; then says which rows there are. */
#include "kinolavust.h"
#include <inttypes.h>
#include <stdio.h>
#include <string.h>

static int by_text(kinolavust *db, int row) {
  char sql[100];
  int len = row == 5 ? snprintf(sql, sizeof sql, "PRAGMA wal_checkpoint") : snprintf(sql, sizeof sql, "INSERT INTO t VALUES (%d)", row);
  return kinolavust_execute(db, 1, sql, (size_t)len, NULL);
}

static int by_statement(kinolavust *db, int row) {
  kinolavust_statement *it;
  int refused = kinolavust_prepare(db, "INSERT INTO t VALUES (?)", 24, &it);
  if (!refused) refused = kinolavust_bind_integer(it, 1, row);
  if (!refused) refused = kinolavust_run(it, 1, NULL);
  kinolavust_finish(it);
  return refused;
}

int main(int count, char **words) {
  kinolavust *db;
  if (count < 2) return 2;
  int refused = kinolavust_open(words[1], NULL, &db);
  if (refused) {
    printf("open:%d\n", refused);
    kinolavust_close(db);
    return 1;
  }
  kinolavust_execute(db, 1, "CREATE TABLE t(a INTEGER)", 25, NULL);
  for (int i = 1; i <= 8; i++) {
    printf("%d:%d ", i, i % 2 ? by_text(db, i) : by_statement(db, i));
    fflush(stdout);
  }
  kinolavust_rows *rows;
  printf("| %d:", kinolavust_execute(db, 2, "SELECT a FROM t", 15, &rows));
  for (size_t row = 0; row < kinolavust_row_count(rows); row++) printf(" %" PRId64, kinolavust_integer(rows, row, 0));
  printf("\n");
  kinolavust_free(rows);
  kinolavust_close(db);
  return 0;
}
