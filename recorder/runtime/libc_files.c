/* Wrappers of libc: files by number, and names of files. See libc.h. What is in a file is no memory. */
#define _GNU_SOURCE
#include "libc.h"
#include <fcntl.h>
#include <limits.h>
#include <poll.h>
#include <stdarg.h>
#include <stdio.h>
#include <stdlib.h>
#include <string.h>
#include <sys/mman.h>
#include <sys/select.h>
#include <sys/socket.h>
#include <sys/stat.h>
#include <sys/uio.h>
#include <unistd.h>

DEFINE_STATE(working_folder);

/* ---- what comes is written, what goes is read ---- */

static ssize_t came(void *to, ssize_t bytes, uintptr_t place) {
  if (bytes > 0) tell(to, (size_t)bytes, ACCESS_WRITE, place);
  return bytes;
}
WRAPPER(ssize_t, read, int file, void *to, size_t n) { return came(to, read(file, to, n), PLACE); }
WRAPPER(ssize_t, pread, int file, void *to, size_t n, off_t at) { return came(to, pread(file, to, n, at), PLACE); }
WRAPPER(ssize_t, pread64, int file, void *to, size_t n, off64_t at) { return came(to, pread64(file, to, n, at), PLACE); }
WRAPPER(ssize_t, recv, int socket, void *to, size_t n, int flags) { return came(to, recv(socket, to, n, flags), PLACE); }
WRAPPER(ssize_t, __read_chk, int file, void *to, size_t n, size_t size) {
  if (n > size) refuse(PLACE, "read is told that its buffer has %zu bytes, and it has %zu", n, size);
  return came(to, read(file, to, n), PLACE);
}
WRAPPER(ssize_t, write, int file, const void *from, size_t n) {
  READ(from, n);
  return write(file, from, n);
}
WRAPPER(ssize_t, pwrite, int file, const void *from, size_t n, off_t at) {
  READ(from, n);
  return pwrite(file, from, n, at);
}
WRAPPER(ssize_t, pwrite64, int file, const void *from, size_t n, off64_t at) {
  READ(from, n);
  return pwrite64(file, from, n, at);
}
WRAPPER(ssize_t, send, int socket, const void *from, size_t n, int flags) {
  READ(from, n);
  return send(socket, from, n, flags);
}
static ssize_t tell_pieces(const struct iovec *pieces, int count, ssize_t bytes, enum access kind, uintptr_t place) {
  tell(pieces, (size_t)count * sizeof *pieces, ACCESS_READ, place);
  size_t left = bytes < 0 ? 0 : (size_t)bytes;
  for (int i = 0; i < count && left; i++) {
    size_t n = pieces[i].iov_len < left ? pieces[i].iov_len : left;
    tell(pieces[i].iov_base, n, kind, place);
    left -= n;
  }
  return bytes;
}
WRAPPER(ssize_t, readv, int file, const struct iovec *pieces, int count) {
  return tell_pieces(pieces, count, readv(file, pieces, count), ACCESS_WRITE, PLACE);
}
WRAPPER(ssize_t, writev, int file, const struct iovec *pieces, int count) {
  return tell_pieces(pieces, count, writev(file, pieces, count), ACCESS_READ, PLACE);
}
WRAPPER(int, pipe, int ends[2]) {
  int result = pipe(ends);
  if (!result) WRITE(ends, 2 * sizeof *ends);
  return result;
}
WRAPPER(int, socketpair, int domain, int type, int protocol, int ends[2]) {
  int result = socketpair(domain, type, protocol, ends);
  if (!result) WRITE(ends, 2 * sizeof *ends);
  return result;
}
WRAPPER(int, poll, struct pollfd *files, nfds_t count, int milliseconds) {
  READ(files, count * sizeof *files);
  int result = poll(files, count, milliseconds);
  for (nfds_t i = 0; i < count && result >= 0; i++) WRITE(&files[i].revents, sizeof files[i].revents);
  return result;
}
static void use_set(fd_set *set, int count, uintptr_t place) {
  size_t bytes = ((size_t)(count > 0 ? count : 0) + 63) / 64 * 8;
  if (!set) return;
  tell(set, bytes, ACCESS_READ, place);
  tell(set, bytes, ACCESS_WRITE, place);
}
WRAPPER(int, select, int count, fd_set *readable, fd_set *writable, fd_set *special, struct timeval *time) {
  use_set(readable, count, PLACE);
  use_set(writable, count, PLACE);
  use_set(special, count, PLACE);
  if (time) {
    READ(time, sizeof *time);
    WRITE(time, sizeof *time);                   /* Linux leaves there what remained */
  }
  return select(count, readable, writable, special, time);
}

/* ---- names of files ---- */

static mode_t mode_of(int flags, va_list v) { return flags & (O_CREAT | O_TMPFILE) ? va_arg(v, mode_t) : 0; }
#define OPEN(call)            \
  va_list v;                  \
  va_start(v, flags);         \
  mode_t mode = mode_of(flags, v); \
  va_end(v);                  \
  READ_STRING(path);          \
  return call
WRAPPER(int, open, const char *path, int flags, ...) { OPEN(open(path, flags, mode)); }
WRAPPER(int, open64, const char *path, int flags, ...) { OPEN(open64(path, flags, mode)); }
WRAPPER(int, openat, int folder, const char *path, int flags, ...) { OPEN(openat(folder, path, flags, mode)); }
WRAPPER(int, openat64, int folder, const char *path, int flags, ...) { OPEN(openat64(folder, path, flags, mode)); }

#define OF_PATH(result, name, call, ...) \
  WRAPPER(result, name, __VA_ARGS__) {   \
    READ_STRING(path);                   \
    return call;                         \
  }
OF_PATH(int, creat, creat(path, mode), const char *path, mode_t mode)
OF_PATH(int, creat64, creat64(path, mode), const char *path, mode_t mode)
OF_PATH(int, access, access(path, mode), const char *path, int mode)
OF_PATH(int, faccessat, faccessat(folder, path, mode, flags), int folder, const char *path, int mode, int flags)
OF_PATH(int, unlink, unlink(path), const char *path)
OF_PATH(int, unlinkat, unlinkat(folder, path, flags), int folder, const char *path, int flags)
OF_PATH(int, remove, remove(path), const char *path)
OF_PATH(int, rmdir, rmdir(path), const char *path)
OF_PATH(int, mkdir, mkdir(path, mode), const char *path, mode_t mode)
OF_PATH(int, mkfifo, mkfifo(path, mode), const char *path, mode_t mode)
OF_PATH(int, chmod, chmod(path, mode), const char *path, mode_t mode)
OF_PATH(int, truncate, truncate(path, bytes), const char *path, off_t bytes)
OF_PATH(int, truncate64, truncate64(path, bytes), const char *path, off64_t bytes)
OF_PATH(long, pathconf, pathconf(path, name), const char *path, int name)
WRAPPER(int, chdir, const char *path) {
  READ_STRING(path);
  WRITE_STATE(working_folder);
  return chdir(path);
}
WRAPPER(int, system, const char *command) {
  if (command) READ_STRING(command);
  return system(command);
}
#define OF_TWO_PATHS(name)                                \
  WRAPPER(int, name, const char *from, const char *to) {  \
    READ_STRING(from);                                    \
    READ_STRING(to);                                      \
    return name(from, to);                                \
  }
OF_TWO_PATHS(rename)
OF_TWO_PATHS(link)
OF_TWO_PATHS(symlink)

#define STATES(name, type, call, ...)          \
  WRAPPER(int, name, __VA_ARGS__, type *to) {  \
    READ_STRING(path);                         \
    int result = call;                         \
    if (!result) WRITE(to, sizeof *to);        \
    return result;                             \
  }
STATES(stat, struct stat, stat(path, to), const char *path)
STATES(stat64, struct stat64, stat64(path, to), const char *path)
STATES(lstat, struct stat, lstat(path, to), const char *path)
STATES(lstat64, struct stat64, lstat64(path, to), const char *path)
WRAPPER(int, fstat, int file, struct stat *to) {
  int result = fstat(file, to);
  if (!result) WRITE(to, sizeof *to);
  return result;
}
WRAPPER(int, fstat64, int file, struct stat64 *to) {
  int result = fstat64(file, to);
  if (!result) WRITE(to, sizeof *to);
  return result;
}

/* A text that libc made becomes a block of the program's. */
static char *given(char *text, uintptr_t place) {
  if (!text) return NULL;
  size_t bytes = strlen(text) + 1;
  char *block = plain_malloc(bytes);
  memcpy(block, text, bytes);
  free(text);
  heap_made(block, bytes, place);
  tell(block, bytes, ACCESS_WRITE, place);
  return block;
}
WRAPPER(char *, realpath, const char *path, char *to) {
  READ_STRING(path);
  if (!to) return given(realpath(path, NULL), PLACE);
  char *text = realpath(path, to);
  if (text) WRITE(text, strlen(text) + 1);
  return text;
}
WRAPPER(char *, canonicalize_file_name, const char *path) {
  READ_STRING(path);
  return given(canonicalize_file_name(path), PLACE);
}
WRAPPER(char *, getcwd, char *to, size_t room) {
  READ_STATE(working_folder);
  if (!to) return given(getcwd(NULL, room), PLACE);
  char *text = getcwd(to, room);
  if (text) WRITE(text, strlen(text) + 1);
  return text;
}
WRAPPER(ssize_t, readlink, const char *path, char *to, size_t room) {
  READ_STRING(path);
  return came(to, readlink(path, to, room), PLACE);
}
#define TEMPLATE(result, name)               \
  WRAPPER(result, name, char *path) {        \
    size_t length = strlen(path);            \
    READ(path, length + 1);                  \
    if (length >= 6) WRITE(path + length - 6, 6); \
    return name(path);                       \
  }
TEMPLATE(int, mkstemp)
TEMPLATE(int, mkstemp64)
TEMPLATE(char *, mkdtemp)

/* ---- mappings: lives begin and end with them ---- */

static void new_lives(void *at, size_t bytes) {
  uintptr_t from = (uintptr_t)at;
  if (at != MAP_FAILED) end_lives(from, from + bytes);
}
WRAPPER(void *, mmap, void *wanted, size_t bytes, int protection, int flags, int file, off_t offset) {
  void *at = mmap(wanted, bytes, protection, flags, file, offset);
  new_lives(at, bytes);
  return at;
}
WRAPPER(void *, mmap64, void *wanted, size_t bytes, int protection, int flags, int file, off64_t offset) {
  void *at = mmap64(wanted, bytes, protection, flags, file, offset);
  new_lives(at, bytes);
  return at;
}
/* As a free does, munmap writes what it takes away. */
WRAPPER(int, munmap, void *at, size_t bytes) {
  int result = munmap(at, bytes);
  if (result) return result;
  WRITE(at, bytes);
  new_lives(at, bytes);
  return 0;
}
