/* Wrappers of libc: streams. See libc.h: a stream is read by what uses it and written by what ends it, so that these two race and two
   uses do not. */
#define _GNU_SOURCE
#include "libc.h"
#include <dirent.h>
#include <stdio.h>
#include <stdlib.h>
#include <string.h>

/* ---- open and close ---- */

/* The stream is a block of libc's, which is named by the call that opened it. */
static FILE *opened(FILE *stream, uintptr_t place) {
  if (stream) heap_made(stream, heap_bytes(stream), place);
  return stream;
}
WRAPPER(FILE *, fopen, const char *path, const char *mode) {
  READ_STRING(path);
  READ_STRING(mode);
  return opened(fopen(path, mode), PLACE);
}
WRAPPER(FILE *, fopen64, const char *path, const char *mode) {
  READ_STRING(path);
  READ_STRING(mode);
  return opened(fopen64(path, mode), PLACE);
}
WRAPPER(FILE *, fdopen, int file, const char *mode) {
  READ_STRING(mode);
  return opened(fdopen(file, mode), PLACE);
}
WRAPPER(FILE *, popen, const char *command, const char *mode) {
  READ_STRING(command);
  READ_STRING(mode);
  return opened(popen(command, mode), PLACE);
}
WRAPPER(FILE *, tmpfile, void) { return opened(tmpfile(), PLACE); }
WRAPPER(FILE *, tmpfile64, void) { return opened(tmpfile64(), PLACE); }
WRAPPER(FILE *, freopen, const char *path, const char *mode, FILE *stream) {
  if (path) READ_STRING(path);
  READ_STRING(mode);
  WRITE(stream, sizeof(uint32_t));
  return freopen(path, mode, stream);
}
WRAPPER(int, fclose, FILE *stream) {
  WRITE(stream, sizeof(uint32_t));
  return fclose(stream);
}
WRAPPER(int, pclose, FILE *stream) {
  WRITE(stream, sizeof(uint32_t));
  return pclose(stream);
}
/* A buffer of the program's belongs to the stream, and so to its lock. */
WRAPPER(int, setvbuf, FILE *stream, char *buffer, int mode, size_t bytes) {
  WRITE(stream, sizeof(uint32_t));
  return setvbuf(stream, buffer, mode, bytes);
}
WRAPPER(void, setbuf, FILE *stream, char *buffer) {
  WRITE(stream, sizeof(uint32_t));
  setbuf(stream, buffer);
}

/* ---- use ---- */

#define USES(result, name, call, ...)   \
  WRAPPER(result, name, __VA_ARGS__) {  \
    USE_STREAM(stream);                 \
    return call;                        \
  }
/* Without the lock two uses race. */
#define UNLOCKED(result, name, call, ...) \
  WRAPPER(result, name, __VA_ARGS__) {    \
    WRITE(stream, sizeof(uint32_t));      \
    return call;                          \
  }
USES(int, fgetc, fgetc(stream), FILE *stream)
USES(int, getc, getc(stream), FILE *stream)
USES(int, _IO_getc, getc(stream), FILE *stream)
UNLOCKED(int, getc_unlocked, getc_unlocked(stream), FILE *stream)
UNLOCKED(int, fgetc_unlocked, fgetc_unlocked(stream), FILE *stream)
USES(int, ungetc, ungetc(c, stream), int c, FILE *stream)
USES(int, fputc, fputc(c, stream), int c, FILE *stream)
USES(int, putc, putc(c, stream), int c, FILE *stream)
USES(int, _IO_putc, putc(c, stream), int c, FILE *stream)
UNLOCKED(int, putc_unlocked, putc_unlocked(c, stream), int c, FILE *stream)
UNLOCKED(int, fputc_unlocked, fputc_unlocked(c, stream), int c, FILE *stream)
USES(int, fseek, fseek(stream, offset, from), FILE *stream, long offset, int from)
USES(int, fseeko, fseeko(stream, offset, from), FILE *stream, off_t offset, int from)
USES(int, fseeko64, fseeko64(stream, offset, from), FILE *stream, off64_t offset, int from)
USES(long, ftell, ftell(stream), FILE *stream)
USES(off_t, ftello, ftello(stream), FILE *stream)
USES(off64_t, ftello64, ftello64(stream), FILE *stream)
USES(int, feof, feof(stream), FILE *stream)
USES(int, ferror, ferror(stream), FILE *stream)
USES(int, fileno, fileno(stream), FILE *stream)
WRAPPER(int, getchar_unlocked, void) {
  WRITE(stdin, sizeof(uint32_t));
  return getchar_unlocked();
}
WRAPPER(int, putchar_unlocked, int c) {
  WRITE(stdout, sizeof(uint32_t));
  return putchar_unlocked(c);
}
WRAPPER(void, rewind, FILE *stream) {
  USE_STREAM(stream);
  rewind(stream);
}
WRAPPER(void, clearerr, FILE *stream) {
  USE_STREAM(stream);
  clearerr(stream);
}
WRAPPER(int, fflush, FILE *stream) {
  if (stream) USE_STREAM(stream);
  return fflush(stream);
}
WRAPPER(void, flockfile, FILE *stream) {
  (void)stream;
  refuse(PLACE, "flockfile: what a lock orders is not known from spawns and syncs");
}
WRAPPER(int, fgetpos, FILE *stream, fpos_t *to) {
  USE_STREAM(stream);
  WRITE(to, sizeof *to);
  return fgetpos(stream, to);
}
WRAPPER(int, fsetpos, FILE *stream, const fpos_t *from) {
  USE_STREAM(stream);
  READ(from, sizeof *from);
  return fsetpos(stream, from);
}

/* ---- text and blocks ---- */

WRAPPER(int, puts, const char *s) {
  READ_STRING(s);
  return puts(s);
}
WRAPPER(int, fputs, const char *s, FILE *stream) {
  USE_STREAM(stream);
  READ_STRING(s);
  return fputs(s, stream);
}
WRAPPER(int, fputs_unlocked, const char *s, FILE *stream) {
  WRITE(stream, sizeof(uint32_t));
  READ_STRING(s);
  return fputs(s, stream);
}
WRAPPER(void, perror, const char *s) {
  if (s) READ_STRING(s);
  perror(s);
}
/* fgets itself does not say how much came, since zeros may be among it. */
static char *get_line(char *to, int room, FILE *stream, uintptr_t place) {
  tell(stream, sizeof(uint32_t), ACCESS_READ, place);
  if (room <= 0) return NULL;
  size_t length = 0;
  int c = 0;
  while (length + 1 < (size_t)room && (c = getc(stream)) != EOF) {
    to[length++] = (char)c;
    if (c == '\n') break;
  }
  bool none = c == EOF && (!length || ferror(stream));
  if (!none) to[length++] = 0;
  tell(to, length, ACCESS_WRITE, place);
  return none ? NULL : to;
}
WRAPPER(char *, fgets, char *to, int room, FILE *stream) { return get_line(to, room, stream, PLACE); }
WRAPPER(char *, fgets_unlocked, char *to, int room, FILE *stream) {
  WRITE(stream, sizeof(uint32_t));
  return get_line(to, room, stream, PLACE);
}
WRAPPER(char *, __fgets_chk, char *to, size_t size, int room, FILE *stream) {
  if (room > 0 && (size_t)room > size) refuse(PLACE, "fgets is told that its buffer has %d bytes, and it has %zu", room, size);
  return get_line(to, room, stream, PLACE);
}
/* What came is whole elements and perhaps a part of one: bytes are counted. */
static size_t get_blocks(void *to, size_t bytes, size_t count, FILE *stream, uintptr_t place) {
  tell(stream, sizeof(uint32_t), ACCESS_READ, place);
  size_t came = bytes && count ? fread(to, 1, bytes * count, stream) : 0;
  tell(to, came, ACCESS_WRITE, place);
  return bytes ? came / bytes : 0;
}
WRAPPER(size_t, fread, void *to, size_t bytes, size_t count, FILE *stream) { return get_blocks(to, bytes, count, stream, PLACE); }
WRAPPER(size_t, fread_unlocked, void *to, size_t bytes, size_t count, FILE *stream) {
  WRITE(stream, sizeof(uint32_t));
  return get_blocks(to, bytes, count, stream, PLACE);
}
WRAPPER(size_t, __fread_chk, void *to, size_t size, size_t bytes, size_t count, FILE *stream) {
  if (bytes && count > size / bytes) refuse(PLACE, "fread is told to read %zu elements of %zu bytes into a buffer of %zu", count, bytes, size);
  return get_blocks(to, bytes, count, stream, PLACE);
}
WRAPPER(size_t, fwrite, const void *from, size_t bytes, size_t count, FILE *stream) {
  USE_STREAM(stream);
  READ(from, bytes * count);
  return fwrite(from, bytes, count, stream);
}
WRAPPER(size_t, fwrite_unlocked, const void *from, size_t bytes, size_t count, FILE *stream) {
  WRITE(stream, sizeof(uint32_t));
  READ(from, bytes * count);
  return fwrite(from, bytes, count, stream);
}
/* The line is read into a buffer of libc's, and the program's grows as getline's would. */
static ssize_t get_delimited(char **line, size_t *room, int delimiter, FILE *stream, uintptr_t place) {
  tell(stream, sizeof(uint32_t), ACCESS_READ, place);
  tell(line, sizeof *line, ACCESS_READ, place);
  tell(room, sizeof *room, ACCESS_READ, place);
  char *own = NULL;
  size_t own_room = 0;
  ssize_t length = getdelim(&own, &own_room, delimiter, stream);
  size_t bytes = length < 0 ? 1 : (size_t)length + 1;
  if (!*line || *room < bytes) {
    size_t wanted = *line && *room * 2 > bytes ? *room * 2 : bytes < 120 ? 120 : bytes;
    char *block = plain_malloc(wanted);
    if (*line) heap_freed(*line, place);
    heap_made(block, wanted, place);
    tell(line, sizeof *line, ACCESS_WRITE, place);
    tell(room, sizeof *room, ACCESS_WRITE, place);
    *line = block;
    *room = wanted;
  }
  if (length >= 0) {
    tell(*line, bytes, ACCESS_WRITE, place);
    memcpy(*line, own, bytes);
  }
  free(own);
  return length;
}
WRAPPER(ssize_t, getline, char **line, size_t *room, FILE *stream) { return get_delimited(line, room, '\n', stream, PLACE); }
WRAPPER(ssize_t, getdelim, char **line, size_t *room, int delimiter, FILE *stream) { return get_delimited(line, room, delimiter, stream, PLACE); }
WRAPPER(ssize_t, __getdelim, char **line, size_t *room, int delimiter, FILE *stream) { return get_delimited(line, room, delimiter, stream, PLACE); }

/* ---- folders ---- */

WRAPPER(DIR *, opendir, const char *path) {
  READ_STRING(path);
  DIR *folder = opendir(path);
  if (folder) heap_made(folder, heap_bytes(folder), PLACE);
  return folder;
}
/* An entry lies in the folder's buffer, which the next call fills again. */
WRAPPER(struct dirent *, readdir, DIR *folder) {
  WRITE(folder, sizeof(uint32_t));
  struct dirent *entry = readdir(folder);
  if (entry) WRITE(entry, entry->d_reclen);
  return entry;
}
WRAPPER(struct dirent64 *, readdir64, DIR *folder) {
  WRITE(folder, sizeof(uint32_t));
  struct dirent64 *entry = readdir64(folder);
  if (entry) WRITE(entry, entry->d_reclen);
  return entry;
}
WRAPPER(void, rewinddir, DIR *folder) {
  WRITE(folder, sizeof(uint32_t));
  rewinddir(folder);
}
WRAPPER(int, closedir, DIR *folder) {
  WRITE(folder, sizeof(uint32_t));
  return closedir(folder);
}
