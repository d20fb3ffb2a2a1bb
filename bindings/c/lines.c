/* Executes the lines of its input as statements, and prints each row as the quote mode of sqlite3 does, with a bar between values.
 * A refusal is printed as its number, name, place, subject and message. */
#define _POSIX_C_SOURCE 200809L
#include "kinolavust.h"
#include <inttypes.h>
#include <stdio.h>
#include <stdlib.h>
#include <string.h>

static void print_text(const char *text, size_t len) {
  putchar('\'');
  for (size_t at = 0; at < len; at++) {
    if (text[at] == '\'') putchar('\'');
    putchar(text[at]);
  }
  putchar('\'');
}

static void print_value(const kinolavust_rows *rows, size_t row, size_t column) {
  size_t len;
  const void *bytes = kinolavust_bytes(rows, row, column, &len);
  switch (kinolavust_kind(rows, row, column)) {
    case KINOLAVUST_INTEGER: printf("%" PRId64, kinolavust_integer(rows, row, column)); break;
    case KINOLAVUST_TEXT: print_text(bytes, len); break;
    case KINOLAVUST_BLOB:
      printf("X'");
      for (size_t at = 0; at < len; at++) printf("%02x", ((const unsigned char *)bytes)[at]);
      printf("'");
      break;
    default: printf("NULL");
  }
}

static void print_rows(const kinolavust_rows *rows) {
  for (size_t row = 0; row < kinolavust_row_count(rows); row++) {
    for (size_t column = 0; column < kinolavust_column_count(rows, row); column++) {
      if (column) putchar('|');
      print_value(rows, row, column);
    }
    putchar('\n');
  }
}

static void print_refusal(const kinolavust *db) {
  int number = kinolavust_refusal(db);
  size_t len;
  const char *subject = kinolavust_subject(db, &len);
  printf("E%d %s|%" PRIu64 "|%.*s|%s\n", number, kinolavust_name(number), kinolavust_place(db), (int)len, subject,
         kinolavust_message(db));
}

int main(int count, char **words) {
  kinolavust *db;
  if (count < 2) return 2;
  if (kinolavust_open(words[1], NULL, &db)) {
    print_refusal(db);
    kinolavust_close(db);
    return 1;
  }
  char *line = NULL;
  size_t room = 0;
  for (ssize_t len; (len = getline(&line, &room, stdin)) > 0;) {
    kinolavust_rows *rows;
    if (kinolavust_execute(db, 1, line, (size_t)len, &rows)) print_refusal(db);
    print_rows(rows);
    kinolavust_free(rows);
  }
  free(line);
  kinolavust_close(db);
  return 0;
}
