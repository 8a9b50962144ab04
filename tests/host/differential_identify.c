/* What state of a packet reader some bytes stand for, found out by asking copies of them, as far as any question can tell. What no question tells apart
 * (the register of a CRC that is already wrong, the fields of an LMP that will be dropped) is taken for one of the states that it can be. */
#include "differential.h"
#include <string.h>

enum { IDL = 0x1C, SPP = 0x3C, EGP = 0xFD };
struct answer { uint32_t event, value, number; buzz_reader after; };

static struct answer ask(const buzz_reader *r, uint32_t byte, uint32_t control) {
  struct answer a;
  a.after = *r;
  if (buzz_reader_step(&a.after, 0, byte, control, &a.event, &a.value, &a.number) != 0) differs("a state that was accepted is refused");
  return a;
}

static int is_violation(const struct answer *a, uint32_t number) { return a->event == BUZZ_VIOLATION && a->value == number; }
static int unchanged(const buzz_reader *r, const struct answer *a) { return memcmp(r, &a->after, sizeof *r) == 0; }

static void open_state(const buzz_reader *r, ref_reader *state);

/* The register that gives two check bytes. */
static uint32_t register_of(uint32_t first, uint32_t second) {
  uint32_t a, b;
  for (uint32_t crc = 0; crc < 65536; crc++) {
    ref_check_bytes(crc, &a, &b);
    if (a == first && b == second) return crc;
  }
  differs("no CRC has these check bytes");
  return 0;
}

/* The second CRC byte is due, after `first`: the packet's register, what stands around it, and whether the packet can still end. */
static int second_due(const buzz_reader *r, uint32_t first, ref_packet *p, ref_reader *state, int around) {
  int ends = 0;
  for (uint32_t second = 0; second < 256; second++) {
    struct answer a = ask(r, second, 0);
    if (a.event != BUZZ_END && !is_violation(&a, 6)) differs("a CRC is neither right nor wrong");
    if (second == 0 && around) open_state(&a.after, state);
    if (a.event != BUZZ_END) continue;
    if (ends++) differs("two CRC bytes are right");
    p->crc = register_of(first, second), state->bad = a.value;
  }
  return ends;
}

/* The first CRC byte is due. */
static void first_due(const buzz_reader *r, ref_packet *p, ref_reader *state) {
  int ends = 0;
  for (uint32_t first = 0; first < 256; first++) {
    struct answer a = ask(r, first, 0);
    if (a.event != BUZZ_NOTHING) differs("an event at the first CRC byte");
    ends += second_due(&a.after, first, p, state, first == 0);
  }
  if (ends != 1) differs("not exactly one CRC is right");
}

/* The closing byte is due. */
static void closing_due(const buzz_reader *r, ref_packet *p, ref_reader *state) {
  int fits = 0;
  for (uint32_t byte = 0; byte < 256; byte++) {
    struct answer a = ask(r, byte, 0);
    if (is_violation(&a, 5)) continue;
    if (a.event != BUZZ_NOTHING || fits++) differs("not exactly one closing byte is right");
    p->head = byte;
    first_due(&a.after, p, state);
  }
  if (!fits) differs("no closing byte is right");
}

/* Nothing is due: which packet is open, how far it is, and what stands around it. */
static void open_state(const buzz_reader *r, ref_reader *state) {
  struct answer byte = ask(r, 1, 0), end = ask(r, EGP, 1), inside = ask(r, SPP, 1);
  ref_packet p = {1, 0, 0, 0};
  buzz_reader on = *r;
  uint32_t left = 0;
  memset(&state->data, 0, sizeof state->data), memset(&state->priority, 0, sizeof state->priority);
  if (is_violation(&byte, 9)) return;
  int priority = is_violation(&inside, 4), empty = is_violation(&end, 8);
  if (priority) {
    while (left <= state->size && (byte = ask(&on, 1, 0)).event == BUZZ_BYTE) on = byte.after, left++;
    if (left > state->size || !is_violation(&byte, 10)) differs("a priority packet without its limit");
  }
  p.bytes = priority ? state->size - left : !empty;
  if (empty != (p.bytes == 0)) differs("an end with no byte is judged otherwise");
  on = empty ? ask(r, 0, 0).after : *r;
  if (!empty && end.event != BUZZ_NOTHING) differs("an event at an end symbol");
  end = ask(&on, EGP, 1);
  ref_reader around = *state;
  closing_due(&end.after, &p, &around);
  around.bad = 0;
  if (empty) {
    /* the register after a zero byte must be that of the start after a zero byte */
    ref_reader one = {0, 8, OPEN, {1, 0, 0, 0xFFFF}, {0, 0, 0, 0}, 0, 0, 0};
    uint32_t e, v, n;
    (void)ref_reader_step(&one, 0, 0, 0, &e, &v, &n);
    if (p.crc != one.data.crc) differs("a packet with no byte has another register than at its start");
    p.crc = 0xFFFF;
  }
  *state = around;
  if (priority) state->priority = p;
  else if (state->data.open) differs("a data packet inside another");
  else state->data = p;
}

/* An LMP's check byte is due. */
static void check_due(const buzz_reader *r, ref_reader *state) {
  int fits = 0;
  for (uint32_t byte = 0; byte < 256; byte++) {
    struct answer a = ask(r, byte, 0);
    if (is_violation(&a, 7)) continue;
    if (fits++) differs("two check bytes are right");
    open_state(&a.after, state);
    state->second = a.event == BUZZ_LMP ? a.number : byte >> 4 == 2 ? 0x10 : 0;
    state->first = byte ^ state->second;
  }
  if (!fits) differs("no check byte is right");
}

/* The packet that an end symbol was of: inside a data packet a priority packet; else nobody can tell. */
static ref_packet *ended_packet(ref_reader *state) { return state->data.open ? &state->priority : &state->data; }

/* Of the 256 data bytes, how many give this event (and of violations this number). */
static uint32_t how_many(const buzz_reader *r, uint32_t event, uint32_t violation) {
  uint32_t n = 0;
  for (uint32_t byte = 0; byte < 256; byte++) {
    struct answer a = ask(r, byte, 0);
    n += a.event == event && (event != BUZZ_VIOLATION || a.value == violation);
  }
  return n;
}

/* No data byte gives an event: the first CRC byte is due, or one of the first two of an LMP. */
static void quiet_state(const buzz_reader *r, ref_packet *p, ref_reader *state) {
  struct answer a = ask(r, 0x20, 0);
  if (how_many(&a.after, BUZZ_VIOLATION, 6)) {
    state->due = CRC_FIRST;
    first_due(r, p, state);
    *ended_packet(state) = *p;
  } else if (how_many(&a.after, BUZZ_VIOLATION, 7)) {
    state->due = LMP_SECOND;
    check_due(&a.after, state);
    state->first = state->first ^ state->second ^ 0x20, state->second = 0;
  } else {
    struct answer b = ask(&a.after, 0, 0), c = ask(&b.after, 0x20, 0);
    if (b.event != BUZZ_NOTHING || c.event != BUZZ_LMP) differs("an event that nothing due gives");
    state->due = LMP_FIRST;
    open_state(&c.after, state);
  }
}

/* Something is due that is not COM's IDL. */
static void due_state(const buzz_reader *r, ref_reader *state) {
  ref_packet p = {1, 0, 1, 0};
  if (how_many(r, BUZZ_START_DATA, 0) == 256) {
    state->due = DATA_CHANNEL;
  } else if (how_many(r, BUZZ_START_PRIORITY, 0) == 256) {
    struct answer a = ask(r, 0, 0);
    open_state(&a.after, state);
    memset(&state->priority, 0, sizeof state->priority);
    state->due = PRIORITY_HEAD;
  } else if (how_many(r, BUZZ_VIOLATION, 5)) {
    closing_due(r, &p, state);
    state->due = CLOSING;
    *ended_packet(state) = p;
  } else if (how_many(r, BUZZ_VIOLATION, 6)) {
    int ends = second_due(r, 0, &p, state, 1);
    if (!ends) p.crc = register_of(0, 0);
    state->due = CRC_SECOND, state->first = !ends;
    *ended_packet(state) = p;
  } else if (how_many(r, BUZZ_VIOLATION, 7)) {
    state->due = LMP_CHECK;
    check_due(r, state);
  } else if (how_many(r, BUZZ_NOTHING, 0) == 256) {
    quiet_state(r, &p, state);
  } else {
    differs("an event that nothing due gives");
  }
}

/* A state that was accepted, is not dropping, and has this S. */
void identify_reader(const buzz_reader *r, uint32_t size, ref_reader *state) {
  struct answer a = ask(r, IDL, 1);
  memset(state, 0, sizeof *state);
  state->size = size;
  if (is_violation(&a, 4)) {
    due_state(r, state);
    return;
  }
  uint32_t waits = 0;
  buzz_reader on = *r;
  for (; a.event == BUZZ_NOTHING && !unchanged(&on, &a) && waits < 4; a = ask(&on, IDL, 1)) on = a.after, waits++;
  if (a.event != BUZZ_NOTHING || waits > 3) differs("an IDL that is neither due nor allowed");
  open_state(&on, state);
  state->due = waits ? COM_1 + 1 - waits : OPEN;
}
