/* The console of a machine without a disk: what a person sees of a run. */
#ifndef CONSOLE_H
#define CONSOLE_H

#include <stddef.h>
#include <stdint.h>
#include "records.h"

/* Milliseconds since the machine's start. */
uint64_t now_ms(void);
/* A line of its own, after the seconds since the machine's start. */
__attribute__((format(printf, 1, 2))) void say(const char *form, ...);
/* An input record, with its number, that the client is given. */
void see_input(uint32_t number, enum type type, const uint8_t *body, size_t size);
/* An output record of the client, whose body is one of its type; the device is the card's name. */
void see_output(enum type type, const uint8_t *body, size_t size, const char *device);

#endif
