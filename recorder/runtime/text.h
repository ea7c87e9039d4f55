/* A trace's file, written fast: words and numbers go into a buffer that is written when it is nearly full.
   Invariant: text_digits is filled before the first number is put. Between two calls there is room for LONGEST_LINE bytes in the buffer. */
#ifndef CILKCHECK_TEXT_H
#define CILKCHECK_TEXT_H
#include "recorder.h"

#define TEXT_BUFFER (1u << 16)
#define LONGEST_LINE 2048u
struct text { int file; size_t used; uint64_t written; const char *path; char buffer[TEXT_BUFFER]; };

/* Fills text_digits. */
void text_begin(void);
/* Creates or empties the file, whose name has to stay as long. A file that cannot be written is refused. */
void text_open(struct text *text, const char *path);
void text_close(struct text *text);
void text_flush(struct text *text);
/* Bytes so far. */
static inline uint64_t text_length(const struct text *text) { return text->written + text->used; }

/* A short text that is copied as a whole, whatever its length. */
struct text_piece { uint32_t length; char bytes[28]; };
static inline void text_piece(struct text *text, const struct text_piece *piece) {
  __builtin_memcpy(text->buffer + text->used, piece->bytes, sizeof piece->bytes);
  text->used += piece->length;
}
/* The words of a request have a fixed length, so that they are copied as one number. */
#define text_word(text, word) (__builtin_memcpy((text)->buffer + (text)->used, word, sizeof word), (text)->used += sizeof word - 1)
void text_line(struct text *text, const char *line);
static inline void text_bytes(struct text *text, const char *bytes, size_t count) {
  __builtin_memcpy(text->buffer + text->used, bytes, count);
  text->used += count;
}

/* The four digits of each number below 10,000. */
extern char text_digits[40004];
static inline size_t text_put_short(char *at, uint32_t number) {
  size_t zeros = (size_t)((number < 1000) + (number < 100) + (number < 10));
  __builtin_memcpy(at, text_digits + number * 4 + zeros, 4);       /* behind the last number's digits lies another's, or the next byte */
  return 4 - zeros;
}
/* Puts a number's digits; up to 12 bytes are written. */
static inline size_t text_put_number(char *at, uint32_t number) {
  if (__builtin_expect(number < 10000, 0)) return text_put_short(at, number);
  uint32_t high = number / 10000, low = number % 10000;
  size_t length = high < 10000 ? text_put_short(at, high) : text_put_number(at, high);
  __builtin_memcpy(at + length, text_digits + low * 4, 4);
  return length + 4;
}
static inline void text_number(struct text *text, uint32_t number) { text->used += text_put_number(text->buffer + text->used, number); }
static inline void text_end_line(struct text *text) {
  text->buffer[text->used++] = '\n';
  if (__builtin_expect(text->used > TEXT_BUFFER - LONGEST_LINE, 0)) text_flush(text);
}

#endif
