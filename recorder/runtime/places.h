/* The tables that the pass puts into the program (pass/rows.h): places, sites, and their names.

   A place is the address of a row of the table of sites: an access, a call, or a mark. A site is what is told as one place: a line of a
   function. It gets its number when the first of its rows is met. Site 0 is no place.

   A place in a header of the system's, or in no known file, stands for the call in the program's own source that led there: PLACE, which
   functions there leave as it is.

   Invariants: `sites` has an entry for each row of the table, 0 where the row was not met yet or stands in such a header. Two rows have one
   site exactly where their files, lines and functions are the same. */
#ifndef CILKCHECK_PLACES_H
#define CILKCHECK_PLACES_H
#include "../pass/rows.h"
#include "recorder.h"

struct places { uintptr_t rows; size_t bytes; uint32_t *sites; };
extern struct places places;

void places_begin(void);
uint32_t place_new_site(uintptr_t place);
static inline uint32_t place_site(uintptr_t place) {
  uintptr_t offset = place - places.rows;
  if (__builtin_expect(offset < places.bytes, 1)) {
    uint32_t site = places.sites[offset / sizeof(struct cilkcheck_site)];
    if (__builtin_expect(site != 0, 1)) return site;
  }
  return place_new_site(place);
}
/* The place itself; where it is in such a header, that of the call that led there, if there is one. */
uintptr_t place_in_source(uintptr_t place);
/* The sites there are: numbers from 1 to this. */
uint32_t place_sites(void);

/* Names. Each text ends in a zero byte and holds 0x20 to 0x7E alone; files in the folder where the program was started are named from there. */

/* `FILE:LINE, FUNCTION | CODE`. */
void site_name(uint32_t site, char *text, size_t room);
/* `FILE:LINE`, or nothing for 0. */
void place_name(uintptr_t place, char *text, size_t room);
/* A text of a row, or an empty one. */
static inline const char *place_text(const int32_t *reference) { return *reference ? cilkcheck_text(reference) : ""; }
/* The name of what is accessed, or of the variable that begins; an empty one where it has none. */
const char *place_variable(uintptr_t place);
uint32_t place_line(uintptr_t place);
/* `FUNCTION (FILE:LINE)`, with the line of the function, or another one of its file. */
void frame_name(const struct cilkcheck_frame *row, uint32_t line, char *text, size_t room);
/* The global or static object that holds the address: its name, and which byte of it. False where there is none. */
bool place_object(uintptr_t address, char *text, size_t room, size_t *byte);
/* Notes what the tables say that is not seen: `not seen: FILE:LINE: WHAT`, or a text that stands for itself. */
void places_note_unseen(void);

#endif
