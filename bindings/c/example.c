/* Notes in a table: makes them where they aren't there yet, and prints those of home. */
#include "kinolavust.h"
#include <stdio.h>
#include <string.h>

static int run(kinolavust *db, const char *sql) {
  int refused = kinolavust_execute(db, 1, sql, strlen(sql), NULL);
  if (refused) fprintf(stderr, "E%d %s: %s\n", refused, kinolavust_name(refused), kinolavust_message(db));
  return refused;
}

static int add(kinolavust_statement *insert, const char *subject, const char *note) {
  kinolavust_bind_text(insert, 1, subject, strlen(subject));
  kinolavust_bind_text(insert, 2, note, strlen(note));
  return kinolavust_run(insert, 1, NULL);
}

static void print_notes(kinolavust *db, const char *subject) {
  static const char sql[] = "SELECT note FROM notes WHERE subject = :subject";
  kinolavust_statement *query;
  kinolavust_rows *rows;
  if (kinolavust_prepare(db, sql, strlen(sql), &query)) return;
  kinolavust_bind_text(query, 1, subject, strlen(subject));
  kinolavust_run(query, 1, &rows);
  for (size_t row = 0; row < kinolavust_row_count(rows); row++) {
    size_t len;
    const char *note = kinolavust_bytes(rows, row, 0, &len);
    printf("%.*s\n", (int)len, note);
  }
  kinolavust_free(rows);
  kinolavust_finish(query);
}

int main(int count, char **words) {
  kinolavust *db;
  if (kinolavust_open(count > 1 ? words[1] : "notes.db", NULL, &db)) {
    fprintf(stderr, "%s\n", kinolavust_message(db));
    kinolavust_close(db);
    return 1;
  }
  static const char sql[] = "INSERT INTO notes VALUES (?, ?)";
  kinolavust_statement *insert;
  run(db, "CREATE TABLE notes(subject TEXT, note TEXT)");
  if (kinolavust_prepare(db, sql, strlen(sql), &insert) == 0) {
    add(insert, "home", "call Ann");
    add(insert, "work", "write the report");
    kinolavust_finish(insert);
  }
  print_notes(db, "home");
  kinolavust_close(db);
  return 0;
}
