/* The lines of the soak: items that are written, lost, damaged, and read at the other end. */
#include "soak.h"

uint32_t losses, damages;

/* Some characters turned or lost. */
static void damage(struct item *it) {
  for (uint32_t k = 1 + below(3); k > 0 && it->count > 0; k--) {
    uint32_t at = below((uint32_t)it->count);
    switch (below(4)) {
    case 0: it->count = at; break; /* the rest is lost */
    case 1: memmove(it->run + at, it->run + at + 1, (it->count - at - 1) * sizeof it->run[0]), it->count--; break;
    case 2: it->run[at] = (uint16_t)below(1024); break;
    default: it->run[at] ^= (uint16_t)(1u << below(10)); break;
    }
  }
}

struct item *behind(struct line *l) { return l->n == QUEUE ? NULL : &l->items[(l->first + l->n) % QUEUE]; }

void onto(struct line *l, int faults) {
  struct item *it = behind(l);
  if (faults && one_in(losses)) return;
  if (faults && one_in(damages)) damage(it);
  l->n++;
}

/* A last character that is out of place everywhere: it leaves the reader dropping, at the writer's disparity, so that a whole packet after it is read. */
void flush(struct line *l) {
  struct item *it = behind(l);
  uint32_t c;
  must(buzz_write_character(0x7C, 1, &l->writing, &c), "ALN is refused");
  it->run[0] = (uint16_t)c, it->count = 1, it->is_flush = 1;
  l->n++;
}

static void heard_event(uint32_t event, uint32_t value, uint32_t number, struct heard *h) {
  switch (event) {
  case BUZZ_START_PRIORITY: h->priority = 1, h->channel = value, h->number = number, h->length = 0; break;
  case BUZZ_START_DATA: h->priority = 0; break;
  case BUZZ_BYTE: if (h->length < MOST_S) h->bytes[h->length++] = (uint8_t)value; break;
  case BUZZ_END: h->ends++, h->bad = value; break;
  case BUZZ_LMP: h->replies++, h->nack = value, h->reply = number; break;
  case BUZZ_VIOLATION: h->violations++; break;
  }
}

static void step(struct line *l, uint32_t violation, uint32_t byte, uint32_t control, struct heard *h) {
  uint32_t event, value, number;
  must(buzz_reader_step(&l->reader, violation, byte, control, &event, &value, &number), "a step is refused");
  heard_event(event, value, number, h);
}

/* Packed and read as a capture. */
static void hear_capture(struct line *l, const struct item *it, struct heard *h) {
  static uint8_t capture[(10 * LETTERS + 7) / 8];
  static uint32_t kinds[LETTERS];
  size_t length, count;
  must(buzz_pack(it->run, it->count, capture, sizeof capture, &length), "packing is refused");
  must(buzz_read_capture(capture, length, &l->reader, &l->reading, kinds, LETTERS, &count), "a capture is refused");
  if (count != it->count) fail("a capture has another number of characters");
  for (size_t i = 0; i < count; i++) heard_event(BUZZ_EVENT(kinds[i]), BUZZ_VALUE(kinds[i]), BUZZ_NUMBER(kinds[i]), h);
}

/* The first item of a line, read: by single characters, as a run or as a capture. */
struct item *hear(struct line *l, struct heard *h) {
  static uint16_t results[LETTERS];
  struct item *it = &l->items[l->first];
  l->first = (l->first + 1) % QUEUE, l->n--;
  h->violations = h->ends = h->replies = 0, h->priority = 0, h->length = 0;
  if (one_in(3)) {
    hear_capture(l, it, h);
  } else if (one_in(2)) {
    must(buzz_read_characters(it->run, it->count, &l->reading, results, it->count), "a run is refused");
    for (size_t i = 0; i < it->count; i++) step(l, results[i] >> 9 & 3, results[i] & 255, results[i] >> 8 & 1, h);
  } else {
    for (size_t i = 0; i < it->count; i++) {
      uint32_t violation, byte, control;
      must(buzz_read_character(it->run[i], &l->reading, &violation, &byte, &control), "a character is refused");
      step(l, violation, byte, control, h);
    }
  }
  return it;
}
