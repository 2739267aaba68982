// Preloaded into a program. It wraps system calls and counts them from 1. If CALL names one of
// them, END_AT and FAIL_AT count only the calls with that name.
//   CALLS=FILE   writes a line for each call to this file: its name, and the names of its files
//   MEET_AT=N    the shell runs the line in MEET just before call N. The file that CALLS names gets
//                a line `met` with the shell's status
//   END_AT=N     kills the program at call N; if the call is a write, after half of it
//   FAIL_AT=N    makes call N fail, with EIO or the error that ERROR names
//   INTERRUPT=1  interrupts each read and each write once before it moves a byte
//   PARTLY=1     makes each write of more than one byte write only half of them
// If the library does one of these things to a call, it writes the call's name to the file that
// TOLD names. If a call makes one of the following mistakes, the library writes the call's name to
// the file that WRONG names:
//   it opens a file under the number of a standard stream
//   it reads a file again after its end
//   it writes nothing to a file
//   it renames a file whose written bytes aren't all flushed, or gives it a hard link
#define _GNU_SOURCE
#include <dlfcn.h>
#include <errno.h>
#include <fcntl.h>
#include <signal.h>
#include <stdarg.h>
#include <stdio.h>
#include <stdlib.h>
#include <string.h>
#include <sys/file.h>
#include <sys/stat.h>
#include <sys/syscall.h>
#include <sys/wait.h>
#include <unistd.h>

#define NEXT(name) ((__typeof__(&name))dlsym(RTLD_NEXT, #name))

// The number of the lowest file descriptors, for which reads and writes are followed.
enum { FOLLOWED = 64 };

static long calls;
static char is_unflushed[FOLLOWED], is_at_end[FOLLOWED];

// Writes a text to the file that a variable names, without any wrapped call.
static void put(const char *variable, int how, const char *text) {
  const char *name = getenv(variable);
  if (!name) return;
  int fd = syscall(SYS_openat, AT_FDCWD, name, O_CREAT | O_WRONLY | how, 0600);
  syscall(SYS_write, fd, text, strlen(text));
  syscall(SYS_close, fd);
}

// Makes the file that a variable names, with this text.
static void make(const char *variable, const char *text) { put(variable, O_TRUNC, text); }

// Writes a line to the file that CALLS names.
static void note(const char *format, ...) {
  char line[12288];
  va_list parts;
  va_start(parts, format);
  vsnprintf(line, sizeof line, format, parts);
  va_end(parts);
  put("CALLS", O_APPEND, line);
}

// Records a call. If it is the call in MEET_AT, runs the shell first.
static void meet(const char *call, const char *first, const char *second) {
  static long count;
  const char *at = getenv("MEET_AT");
  int error = errno;
  if (!at) return;
  if (++count == atol(at)) {
    unsetenv("LD_PRELOAD");
    note("met %d\n", WEXITSTATUS(system(getenv("MEET"))));
  }
  note("%s %s %s\n", call, first, second);
  errno = error;
}

// Whether this variable has the number of the current call.
static int is_at(const char *variable) {
  const char *at = getenv(variable);
  return at && calls == atol(at);
}

static void end(void) {
  kill(getpid(), SIGKILL);
  for (;;) pause();
}

// The error that a failing call reports.
static int wanted_error(void) {
  const char *name = getenv("ERROR");
  if (name && !strcmp(name, "ENOSPC")) return ENOSPC;
  if (name && !strcmp(name, "ENOMEM")) return ENOMEM;
  return EIO;
}

// What a wrapped call does.
enum fate { PASSES, FAILS, ENDS };

// Decides what this call does. Counts the call if calls with its name are counted.
static enum fate fate_of(const char *call) {
  const char *name = getenv("CALL");
  if (name && strcmp(name, call)) return PASSES;
  calls++;
  enum fate fate = is_at("END_AT") ? ENDS : is_at("FAIL_AT") ? FAILS : PASSES;
  if (fate != PASSES) make("TOLD", call);
  return fate;
}

// Kills the program, or returns whether the call has to fail.
static int meets(enum fate fate) {
  if (fate == ENDS) end();
  if (fate == FAILS) errno = wanted_error();
  return fate == FAILS;
}

static int fails_at(const char *call, const char *first, const char *second) {
  meet(call, first, second);
  return meets(fate_of(call));
}

static int fails(const char *call) { return fails_at(call, "", ""); }

// Whether this read or write is interrupted. Every second read or write is.
static int is_interrupted(const char *call) {
  static int before;
  before = getenv("INTERRUPT") && !before;
  if (before) make("TOLD", call);
  errno = EINTR;
  return before;
}

// How many of its bytes a write writes.
static size_t written_of(size_t size) {
  if (size < 2 || !getenv("PARTLY")) return size;
  make("TOLD", "write");
  return size / 2;
}

// Records whether a file has bytes that were written and aren't flushed yet.
static void mark_unflushed(int fd, int unflushed) {
  if (fd > STDERR_FILENO && fd < FOLLOWED) is_unflushed[fd] = unflushed;
}

// Records whether the end of a file was read. After that, another read is wrong.
static void mark_end(int fd, int end) {
  if (fd < 0 || fd >= FOLLOWED) return;
  if (end && is_at_end[fd]) make("WRONG", "read");
  is_at_end[fd] = end;
}

ssize_t read(int fd, void *into, size_t size) {
  if (is_interrupted("read") || fails("read")) return -1;
  ssize_t got = NEXT(read)(fd, into, size);
  if (size > 0) mark_end(fd, got == 0);
  return got;
}

ssize_t write(int fd, const void *from, size_t size) {
  if (is_interrupted("write")) return -1;
  if (size == 0) make("WRONG", "write");
  mark_unflushed(fd, 1);
  meet("write", "", "");
  enum fate fate = fate_of("write");
  if (fate == ENDS) NEXT(write)(fd, from, size / 2);
  return meets(fate) ? -1 : NEXT(write)(fd, from, written_of(size));
}

// `__write` is another name for `write`.
ssize_t __write(int fd, const void *from, size_t size) { return write(fd, from, size); }

int open(const char *path, int flags, ...) {
  va_list more;
  va_start(more, flags);
  mode_t mode = flags & O_CREAT ? va_arg(more, mode_t) : 0;
  va_end(more);
  meet(flags & O_CREAT ? "create" : "open", path, "");
  if (meets(fate_of("open"))) return -1;
  int fd = NEXT(open)(path, flags, mode);
  if (fd >= 0 && fd <= STDERR_FILENO && strcmp(path, "/")) make("WRONG", "open");
  mark_end(fd, 0);
  mark_unflushed(fd, 0);
  return fd;
}

int close(int fd) {
  int is_failed = fails("close"), closed = NEXT(close)(fd);
  return is_failed ? -1 : closed;
}

int statx(int folder, const char *restrict path, int flags, unsigned mask, struct statx *restrict into) {
  return fails_at("statx", path, "") ? -1 : NEXT(statx)(folder, path, flags, mask, into);
}

char *realpath(const char *restrict path, char *restrict into) { return fails_at("realpath", path, "") ? NULL : NEXT(realpath)(path, into); }

int fchmod(int fd, mode_t mode) { return fails("fchmod") ? -1 : NEXT(fchmod)(fd, mode); }

int flock(int fd, int how) { return fails("flock") ? -1 : NEXT(flock)(fd, how); }

int fsync(int fd) {
  if (fails("fsync")) return -1;
  mark_unflushed(fd, 0);
  return NEXT(fsync)(fd);
}

int fdatasync(int fd) {
  if (fails("fdatasync")) return -1;
  mark_unflushed(fd, 0);
  return NEXT(fdatasync)(fd);
}

int ftruncate(int fd, off_t size) { return fails("ftruncate") ? -1 : NEXT(ftruncate)(fd, size); }

int rename(const char *from, const char *to) {
  if (memchr(is_unflushed, 1, FOLLOWED)) make("WRONG", "rename");
  return fails_at("rename", from, to) ? -1 : NEXT(rename)(from, to);
}

int unlink(const char *path) { return fails_at("unlink", path, "") ? -1 : NEXT(unlink)(path); }

int link(const char *from, const char *to) {
  if (memchr(is_unflushed, 1, FOLLOWED)) make("WRONG", "link");
  return fails_at("link", from, to) ? -1 : NEXT(link)(from, to);
}

ssize_t readlink(const char *restrict path, char *restrict into, size_t size) {
  return fails_at("readlink", path, "") ? -1 : NEXT(readlink)(path, into, size);
}
