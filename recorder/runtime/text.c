/* A trace's file. */
#define _GNU_SOURCE
#include "text.h"
#include <errno.h>
#include <fcntl.h>
#include <string.h>
#include <unistd.h>

char text_digits[40004];
void text_begin(void) {
  char *at = text_digits;
  for (int i = 0; i < 10000; i++) { *at++ = (char)('0' + i / 1000); *at++ = (char)('0' + i / 100 % 10); *at++ = (char)('0' + i / 10 % 10); *at++ = (char)('0' + i % 10); }
}

void text_open(struct text *text, const char *path) {
  text->used = 0;
  text->written = 0;
  text->path = path;
  text->file = open(path, O_WRONLY | O_CREAT | O_TRUNC | O_CLOEXEC, 0666);
  if (text->file < 0) refuse(0, "cannot write %s: %s", path, strerror(errno));
}
void text_flush(struct text *text) {
  size_t done = 0;
  while (done < text->used) {
    ssize_t now = write(text->file, text->buffer + done, text->used - done);
    if (now < 0 && errno == EINTR) continue;
    if (now <= 0) refuse(0, "cannot write %s: %s", text->path, strerror(errno));
    done += (size_t)now;
  }
  text->written += text->used;
  text->used = 0;
}
void text_close(struct text *text) {
  text_flush(text);
  if (close(text->file)) refuse(0, "cannot write %s: %s", text->path, strerror(errno));
}
void text_line(struct text *text, const char *line) {
  size_t length = strnlen(line, LONGEST_LINE - 256);
  memcpy(text->buffer + text->used, line, length);
  text->used += length;
}
