/* Stands before the C library's calls of files (LD_PRELOAD), of which some then fail. tests/failing compiles it and says which.

   FAILING="KIND FIRST COUNT HOW": of the calls of a kind, or of "any", those numbered FIRST to FIRST + COUNT - 1 fail, with the error of the
   number HOW, or so:
     short  half of the bytes are read or written, and the answer is their number
     zero   nothing is read or written, and the answer is 0
     part   half of the bytes are written, then the error is ENOSPC
     lost   a sync fails with EIO, and its file has again what it had when it was synced last
     crash  both files have again what they had when they were synced last, and the program ends with the status 99
   FAILING="size FIRST": no file grows past so many bytes.

   Each call of the two files and of their folder is a line on the error output, with " !" where it failed, and so is each reply, and each
   reading of the input. */
#define _GNU_SOURCE
#include <dlfcn.h>
#include <errno.h>
#include <fcntl.h>
#include <signal.h>
#include <stdarg.h>
#include <stdio.h>
#include <stdlib.h>
#include <string.h>
#include <sys/resource.h>
#include <sys/stat.h>
#include <unistd.h>

enum { OPEN, STATX, PREAD, PWRITE, FTRUNCATE, FDATASYNC, FSYNC, KINDS };
static const char *const kinds[] = {"open", "statx", "pread", "pwrite", "ftruncate", "fdatasync", "fsync"};
enum { DB = 1, LOG, FOLDER };
static const char *const names[] = {"", "db", "log", "folder"};

static int opened[64]; /* which file a descriptor is of, or 0 */
static struct { int fd; char *bytes; off_t len; } synced[LOG + 1];
static long done[KINDS], done_in_all, first, count;
static char kind[16], how[16];

#define REAL(name) ((__typeof__(&name))dlsym(RTLD_NEXT, #name))

__attribute__((constructor)) static void begin(void) {
  const char *words = getenv("FAILING");
  if (words) sscanf(words, "%15s %ld %ld %15s", kind, &first, &count, how);
  if (!strcmp(kind, "size")) {
    struct rlimit limit = {first, RLIM_INFINITY};
    setrlimit(RLIMIT_FSIZE, &limit);
    signal(SIGXFSZ, SIG_IGN);
  }
}

static int is(const char *word) { return !strcmp(how, word); }

static int of(int fd) { return fd >= 0 && fd < 64 ? opened[fd] : 0; }

/* Keeps what a file has, where it may be given back. */
static void keep(int file) {
  struct stat found;
  if (!file || file > LOG || !(is("lost") || is("crash"))) return;
  fstat(synced[file].fd, &found);
  synced[file].len = found.st_size;
  synced[file].bytes = realloc(synced[file].bytes, found.st_size + 1);
  REAL(pread)(synced[file].fd, synced[file].bytes, found.st_size, 0);
}

static void give_back(int file) {
  if (!file || file > LOG || !synced[file].bytes) return;
  REAL(ftruncate)(synced[file].fd, synced[file].len);
  REAL(pwrite)(synced[file].fd, synced[file].bytes, synced[file].len, 0);
}

/* Writes a call's line, and gives its answer. */
static long told(int which, int file, int is_one, long answer) {
  int error = errno;
  if (file) dprintf(2, "%s %s%s\n", kinds[which], names[file], is_one || answer < 0 ? " !" : "");
  errno = error;
  return answer;
}

/* Whether a call is one that fails. Then errno is set. */
static int fails(int which, int file) {
  if (!file) return 0;
  done[which]++, done_in_all++;
  long number = !strcmp(kind, "any") ? done_in_all : !strcmp(kind, kinds[which]) ? done[which] : -1;
  if (number < first || number >= first + count) return 0;
  if (is("crash")) {
    told(which, file, 1, -1);
    give_back(DB), give_back(LOG);
    _exit(99);
  }
  errno = is("part") ? ENOSPC : is("lost") ? EIO : atoi(how);
  return 1;
}

int open(const char *name, int flags, ...) {
  va_list rest;
  va_start(rest, flags);
  int mode = flags & O_CREAT ? va_arg(rest, int) : 0;
  va_end(rest);
  size_t len = strlen(name);
  int file = !(flags & O_CREAT) ? FOLDER : len > 4 && !strcmp(name + len - 4, "-wal") ? LOG : DB;
  int one = fails(OPEN, file);
  int fd = told(OPEN, file, one, one ? -1 : REAL(open)(name, flags, mode));
  if (fd >= 0 && fd < 64) {
    opened[fd] = file;
    if (file <= LOG) synced[file].fd = fd, keep(file);
  }
  return fd;
}

int close(int fd) {
  if (of(fd)) opened[fd] = 0;
  return REAL(close)(fd);
}

int statx(int fd, const char *restrict path, int flags, unsigned mask, struct statx *restrict found) {
  int one = fails(STATX, of(fd));
  return told(STATX, of(fd), one, one ? -1 : REAL(statx)(fd, path, flags, mask, found));
}

ssize_t pread(int fd, void *to, size_t len, off_t at) {
  int one = fails(PREAD, of(fd));
  ssize_t answer = is("zero") ? 0 : -1;
  if (!one || is("short")) answer = REAL(pread)(fd, to, one ? (len + 1) / 2 : len, at);
  return told(PREAD, of(fd), one, answer);
}

ssize_t pwrite(int fd, const void *from, size_t len, off_t at) {
  int one = fails(PWRITE, of(fd)), error = errno;
  ssize_t answer = is("zero") ? 0 : -1;
  if (!one || is("short")) return told(PWRITE, of(fd), one, REAL(pwrite)(fd, from, one ? (len + 1) / 2 : len, at));
  if (is("part")) REAL(pwrite)(fd, from, len / 2, at);
  errno = error;
  return told(PWRITE, of(fd), one, answer);
}

int ftruncate(int fd, off_t len) {
  int one = fails(FTRUNCATE, of(fd));
  return told(FTRUNCATE, of(fd), one, one ? -1 : REAL(ftruncate)(fd, len));
}

static int sync_by(int (*real)(int), int which, int fd) {
  int file = of(fd), one = fails(which, file), error = errno;
  int answer = one ? -1 : real(fd);
  if (one && is("lost")) give_back(file), errno = error;
  if (!answer) keep(file);
  return told(which, file, one, answer);
}

int fdatasync(int fd) { return sync_by(REAL(fdatasync), FDATASYNC, fd); }

int fsync(int fd) { return sync_by(REAL(fsync), FSYNC, fd); }

ssize_t read(int fd, void *to, size_t len) {
  if (fd == 0) dprintf(2, "input\n");
  return REAL(read)(fd, to, len);
}

ssize_t write(int fd, const void *from, size_t len) {
  if (fd == 1) dprintf(2, "reply\n");
  return REAL(write)(fd, from, len);
}
