/* kinolavust: an embedded SQL engine for one file of SQLite 3 in WAL mode.
 *
 * Link libkinolavust.a, or libkinolavust.so. One process has a database open at a time, and in it the thread that opened it,
 * with 2 MiB of stack: another's call answers 11 (Misuse) and does nothing. Strings and blobs come with their length; texts are
 * UTF-8, and may hold a zero byte. What `kinolavust_open` gives, `kinolavust_close` takes back; what `kinolavust_execute` and
 * `kinolavust_run` give, `kinolavust_free`; what `kinolavust_prepare` gives, `kinolavust_finish`. What other functions point to
 * belongs to these: it is there until they are given back, and what is said of a refusal until the next call. Each function may be
 * given NULL for a database, a statement or rows.
 */
#ifndef KINOLAVUST_H
#define KINOLAVUST_H

#include <stddef.h>
#include <stdint.h>

#ifdef __cplusplus
extern "C" {
#endif

typedef struct kinolavust kinolavust;           /* an open database */
typedef struct kinolavust_rows kinolavust_rows; /* the rows of a reply */
typedef struct kinolavust_statement kinolavust_statement; /* a statement that was read once */

typedef struct {
  uint32_t page_size; /* of a new file: a power of two from 512 to 65536; 0 stands for 4096 */
  uint64_t salts;     /* of a new log; 0 stands for 0x0000000100000002 */
} kinolavust_options;

/* What a call answers. All other answers are the numbers of refusals: 18 is E18 Unique. */
enum { KINOLAVUST_OK = 0 };

/* The kinds of values. */
enum { KINOLAVUST_NULL = 0, KINOLAVUST_INTEGER = 1, KINOLAVUST_TEXT = 2, KINOLAVUST_BLOB = 3 };

/* Opens the database of a file, and creates it where the file doesn't exist or is blank. Its log is the file whose name ends in
 * -wal. `options` may be NULL. Refused, `*db` is given too, for the functions below on refusals, and must be closed; it is NULL
 * where there is no memory for it. */
int kinolavust_open(const char *path, const kinolavust_options *options, kinolavust **db);

/* Executes one statement on a connection, 1 to 16. At 0 all that it changed is in the files, and where it commits is synced.
 * `rows` may be NULL; else it is given the rows at 0, and NULL at a refusal. */
int kinolavust_execute(kinolavust *db, unsigned connection, const char *sql, size_t len, kinolavust_rows **rows);

/* Reads a query, an INSERT, an UPDATE or a DELETE, to be run often. A parameter stands where an expression may: `?`, `?N`, `:name`,
 * `@name` or `$name`, outside quotes and comments. N is its place, 1 to 32766; a `?`, and a name that is new, takes the place after
 * the greatest before it. (To the engine a parameter is the quoted name "?N", which counts among a statement's 65,536 bytes, and
 * means the same where it is written so.) Other statements are refused as 4 (Unsupported): `kinolavust_execute` takes them.
 * Refused, `*statement` is NULL. */
int kinolavust_prepare(kinolavust *db, const char *sql, size_t len, kinolavust_statement **statement);

/* The greatest place of a parameter; its name with its mark, NULL for a `?`; and the place of a name with its mark, or 0. */
size_t kinolavust_parameter_count(const kinolavust_statement *statement);
const char *kinolavust_parameter_name(const kinolavust_statement *statement, size_t place, size_t *len);
size_t kinolavust_parameter_place(const kinolavust_statement *statement, const char *name, size_t len);

/* Gives a parameter its value, which is copied, and stays until another is given; NULL before the first, and for a NULL pointer.
 * A value that a row takes has at most 1,000,000 bytes (25). Refused, as 11 for a place that isn't there or 1 without memory, the
 * parameter keeps its value. */
int kinolavust_bind_null(kinolavust_statement *statement, size_t place);
int kinolavust_bind_integer(kinolavust_statement *statement, size_t place, int64_t number);
int kinolavust_bind_text(kinolavust_statement *statement, size_t place, const char *text, size_t len);
int kinolavust_bind_blob(kinolavust_statement *statement, size_t place, const void *bytes, size_t len);

/* Runs the statement with its values on a connection, 1 to 16: answers and gives rows as `kinolavust_execute`. Tables and columns are
 * looked up at each run. */
int kinolavust_run(kinolavust_statement *statement, unsigned connection, kinolavust_rows **rows);

/* A statement may be finished before or after its database is closed. Of a closed one it can't be bound or run any more (11). */
void kinolavust_finish(kinolavust_statement *statement);

/* Of the last call's refusal: its number, 0 if there was none; a sentence; the byte of the statement where it leaves the grammar
 * (E7) or the damaged page (E5), else 0; the name or the text that it speaks of, or "". */
int kinolavust_refusal(const kinolavust *db);
const char *kinolavust_message(const kinolavust *db);
uint64_t kinolavust_place(const kinolavust *db);
const char *kinolavust_subject(const kinolavust *db, size_t *len);

/* The name of a refusal's number, as "Unique". */
const char *kinolavust_name(int number);

/* A value past the last row or column is NULL. `kinolavust_bytes` are those of a text or a blob; else NULL, and 0 bytes. */
size_t kinolavust_row_count(const kinolavust_rows *rows);
size_t kinolavust_column_count(const kinolavust_rows *rows, size_t row);
int kinolavust_kind(const kinolavust_rows *rows, size_t row, size_t column);
int64_t kinolavust_integer(const kinolavust_rows *rows, size_t row, size_t column);
const void *kinolavust_bytes(const kinolavust_rows *rows, size_t row, size_t column, size_t *len);
void kinolavust_free(kinolavust_rows *rows);

/* Open transactions are rolled back. */
void kinolavust_close(kinolavust *db);

#ifdef __cplusplus
}
#endif
#endif
