/* What a run's console knows of a drive's session (RFC 7143), and the sentences on one that isn't hooked. */
#ifndef DRIVES_H
#define DRIVES_H

#include <stddef.h>
#include <stdint.h>
#include "opens.h"

/* An open's target: a name, a zero byte, and the unit. */
enum { UNIT_LENGTH = 8 };
void name_unit(const uint8_t unit[UNIT_LENGTH]);
/* As `unit 0 of NAME`, and as `NAME, unit 0`. */
struct text drive_text(void);
struct text session_text(void);
/* The open that lives is a drive's from now on, and what an open that ends was: a drive's text, or null. */
void keep_drive(void);
const char *drive_of(unsigned number);
/* A drive's stream has grown to this place; an object was entered from above, and where it is a drive's disk that is asked
 * for blocks by this, the drive's open is the one that is looked at. */
void advance_drive(unsigned number, uint32_t place);
void enter_disk(uint64_t object);
/* The PDUs of a segment of the target's. */
void note_pdus(uint32_t number, const uint8_t *bytes, size_t size);
/* Why the open failed by this cause, with its two numbers, and what to do, in the words of `show.py --why`; or null. */
const char *sentence_on_drive(const char *server, unsigned cause, uint32_t number, uint32_t code);
const char *advice_on_drive(unsigned cause, uint32_t code);

#endif
