/* The comparison's own tools: chance, lent memory with guards, and the judge of a call. */
#ifndef DIFFERENTIAL_H
#define DIFFERENTIAL_H

#include "buzzgarland.h"
#include "reference.h"
#include <stddef.h>
#include <stdint.h>

#ifdef WRONG_ARCHIVE
#include "wrong_archive.h"
#endif

/* Chance, from the seed alone. */
uint32_t any32(void);
uint32_t below(uint32_t n);
int one_in(uint32_t n);
uint32_t number_to(uint32_t most);    /* mostly 0 to most, now and then anything else */
uint32_t mark(void);                  /* 0, 1, or anything that counts as 1 */
int32_t disparity(void);              /* mostly -1 or +1 */
uint32_t allowed_size(void);          /* 8 to 1024 */
uint32_t size_of_segment(void);       /* mostly an allowed S */
size_t room_for(size_t needed);       /* exactly that, one less, one more, none, or plenty */

/* A run of memory lent to one call, once to the archive and once to the reference, with the same bytes in it. */
typedef struct lent { uint8_t *archive, *reference, *before; size_t size; int is_state; } lent;

/* A call begins with its name, goes on with its numbers (for the report) and what it is lent, and ends with `judge`. */
void begin(const char *name);
void with(const char *what, int64_t value);
lent *lend(const void *bytes, size_t size); /* NULL: any bytes at all */
lent *lend_state(const void *bytes, size_t size); /* compared by its changes, since the reference has a state of its own */

/* Both answers, all memory, the guards; of a refusal also that nothing changed at all. Ends the program at a difference. */
void judge(uint32_t archive, uint32_t reference);
void give_back(void);
void differs(const char *why);

/* States: the bytes are the same exactly if the reference's states are. `kind` keeps apart the three kinds of state. */
void same_state(int kind, const void *bytes, size_t size, const void *state, size_t state_size);

/* Bytes of a state with something wrong in them. */
void break_bytes(uint8_t *bytes, size_t size, const uint8_t *others);

/* What the archive takes such bytes for, found out by asking copies of them: no state (`broken`), or one that the reference can go on from. */
void identify_reader(const buzz_reader *reader, uint32_t size, ref_reader *state);
void identify_sender(const uint8_t *bytes, ref_sender *state);
void identify_receiver(const uint8_t *bytes, ref_receiver *state);

#define A(type, l) ((type *)(void *)(l)->archive)
#define R(type, l) ((type *)(void *)(l)->reference)

/* One call of a room each, or some in a row. */
void every_character(void);
void characters_step(void);
void captures_step(void);
void writer_step(void);
void reader_step(void);
void sender_step(void);
void receiver_step(void);

#endif
