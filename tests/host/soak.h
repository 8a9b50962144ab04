/* The soak's lines, and what both of its files share. What the model is stands in soak.c. */
#ifndef SOAK_H
#define SOAK_H

#include "buzzgarland.h"
#include <stdint.h>
#include <stdio.h>
#include <stdlib.h>
#include <string.h>

enum { MOST_S = 1024, QUEUE = 24, LETTERS = MOST_S + 6 };
struct item { size_t count; uint16_t run[LETTERS]; uint64_t index; uint32_t nack, number; int is_flush; };
struct line { int32_t writing, reading; buzz_reader reader; struct item items[QUEUE]; uint32_t first, n; };

/* What the characters of an item were read as. */
struct heard { int violations, ends, replies; uint32_t priority, number, channel, bad, nack, reply; size_t length; uint8_t bytes[MOST_S]; };

extern uint32_t losses, damages; /* one in so many items is lost, is damaged; 0: none */
uint32_t below(uint32_t n);
int one_in(uint32_t n);
void fail(const char *what);
void must(uint32_t refusal, const char *call);

struct item *behind(struct line *l);            /* the place for the next item, or NULL: then it is lost */
void onto(struct line *l, int faults);          /* the item that was put there goes onto the line */
void flush(struct line *l);                     /* one character that is out of place everywhere */
struct item *hear(struct line *l, struct heard *h);

#endif
