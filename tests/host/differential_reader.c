/* The packet reader: long histories of some readers, each symbol chosen by what the reference has due, so that packets are finished. */
#include "differential.h"
#include <string.h>

enum { READERS = 6 };
static const uint8_t twelve[12] = {0xBC, 0x1C, 0x3C, 0x5C, 0x9C, 0xDC, 0x7C, 0xF7, 0xFB, 0xFD, 0xFE, 0xFC};

/* The archive's bytes and the reference's state of one reader; how rarely a packet ends and how rarely something is out of place. Strange: bytes
 * that nobody made, so that the state may be one of several that nobody can tell apart. */
static struct pair { uint8_t bytes[BUZZ_READER_BYTES]; ref_reader state; uint32_t ends, slips; int made, strange; } pairs[READERS];

struct symbol { uint32_t violation, byte, control; };

static struct symbol data(uint32_t byte) {
  struct symbol s = {0, byte, 0};
  return s;
}

static struct symbol control(uint32_t byte) {
  struct symbol s = {0, byte, mark() | 1};
  return s;
}

static struct symbol anything(void) {
  struct symbol s = {number_to(2), number_to(255), mark()};
  if (s.control && !one_in(16)) s.byte = twelve[below(12)];
  if (!one_in(3)) s.violation = 0;
  return s;
}

/* Where nothing is due: a packet goes on or ends, or something that may stand there. */
static struct symbol between(const ref_reader *r, uint32_t ends) {
  int in = r->data.open || r->priority.open;
  if (in && !r->priority.open && one_in(12)) return control(0x3C); /* a priority packet inside */
  if (in && !one_in(8)) return data(below(256));
  if (in && r->priority.bytes + (r->priority.open ? 0 : r->data.bytes) > 0 && one_in(ends)) return control(one_in(3) ? 0xFE : 0xFD);
  switch (below(7)) {
  case 0: return control(0xBC);
  case 1: return control(0xF7);
  case 2: return r->priority.open ? data(below(256)) : control(0x3C);
  case 3: return in ? data(0) : control(0x5C);
  case 4: return in ? data(below(256)) : data(0);
  default: return control(0x1C);
  }
}

static struct symbol fitting(const ref_reader *r, uint32_t ends) {
  const ref_packet *p = r->priority.open ? &r->priority : &r->data;
  uint32_t first, second;
  ref_check_bytes(p->crc, &first, &second);
  switch (r->due) {
  case OPEN: return between(r, ends);
  case DROPPING: return one_in(3) ? anything() : control(twelve[one_in(2) ? 2 : one_in(2) ? 3 : 7]);
  case CLOSING: return data(p->head);
  case CRC_FIRST: return data(first);
  case CRC_SECOND: return data(second);
  case LMP_FIRST: return data(one_in(6) ? below(256) : 0x20 + below(one_in(6) ? 16 : 2));
  case LMP_SECOND: return data(one_in(6) ? below(256) : below(16));
  case LMP_CHECK: return data(r->first ^ r->second);
  case COM_3: case COM_2: case COM_1: return control(0x1C);
  default: return data(below(256));
  }
}

static struct symbol next(const struct pair *p) {
  struct symbol s;
  if (!one_in(p->slips)) return fitting(&p->state, p->ends);
  if (one_in(2)) return anything();
  s = fitting(&p->state, p->ends);
  if (s.control == 0) s.byte ^= 1u << below(8);
  else s.violation = below(3);
  return s;
}

static void a_fresh(struct pair *p) {
  uint32_t size = size_of_segment();
  ref_reader state = p->state;
  begin("buzz_reader_fresh");
  with("size", size);
  lent *l = lend_state(NULL, BUZZ_READER_BYTES);
  judge(buzz_reader_fresh(size, A(buzz_reader, l)), ref_reader_fresh(size, &state));
  if (ref_size_allowed(size)) {
    memcpy(p->bytes, l->archive, BUZZ_READER_BYTES);
    p->state = state, p->made = 1;
    p->ends = one_in(3) ? 4 : one_in(2) ? 60 : 3000;
    p->slips = one_in(3) ? 8 : one_in(2) ? 100 : 5000;
    same_state(0, p->bytes, BUZZ_READER_BYTES, &p->state, sizeof p->state);
  }
  give_back();
}

static void a_step(struct pair *p) {
  struct symbol s = next(p);
  ref_reader old = p->state;
  begin("buzz_reader_step");
  with("due", p->state.due), with("violation", s.violation), with("byte", s.byte), with("control", s.control);
  lent *l = lend_state(p->bytes, BUZZ_READER_BYTES), *e = lend(NULL, 4), *v = lend(NULL, 4), *n = lend(NULL, 4);
  uint32_t answer = ref_reader_step(&p->state, s.violation, s.byte, s.control, R(uint32_t, e), R(uint32_t, v), R(uint32_t, n));
  judge(buzz_reader_step(A(buzz_reader, l), s.violation, s.byte, s.control, A(uint32_t, e), A(uint32_t, v), A(uint32_t, n)), answer);
  if (memcmp(&old, &p->state, sizeof old) == 0 && memcmp(l->archive, l->before, l->size) != 0) differs("a state changed where nothing happened");
  memcpy(p->bytes, l->archive, BUZZ_READER_BYTES);
  if (!p->strange) same_state(0, p->bytes, BUZZ_READER_BYTES, &p->state, sizeof p->state);
  give_back();
}

/* The character of a symbol, at a disparity, right or wrong; of what has none, anything. */
static uint16_t character_for(struct symbol s, int32_t d) {
  uint32_t c = below(1024);
  int32_t at = s.violation != 2 ? d : d == 1 ? -1 : 1;
  if (s.violation != 1 && s.control && s.byte == 0xFC) c = at == -1 ? 0x0F8 : 0x307;
  else if (s.violation != 1) (void)ref_write_character(s.byte, s.control, &at, &c);
  return (uint16_t)c;
}

/* A capture whose characters fit the reader, mostly, from where it stands. */
static void a_capture(struct pair *p) {
  static uint16_t run[3000];
  static uint8_t bytes[3752];
  struct pair ahead = *p;
  ref_reader old = p->state;
  int32_t d0 = disparity(), d = d0;
  size_t n = one_in(400) ? below(3000) : below(40), length = 0;
  for (size_t i = 0; i < n; i++) {
    uint32_t v, b, k, e, x, y;
    run[i] = character_for(next(&ahead), d);
    if (ref_read_character(run[i], &d, &v, &b, &k) == 0) (void)ref_reader_step(&ahead.state, v, b, k, &e, &x, &y);
  }
  (void)ref_pack(run, n, bytes, sizeof bytes, &length);
  if (length && one_in(20)) bytes[length - 1] ^= (uint8_t)(1 << below(8));
  if (length && one_in(20)) length--;
  size_t room = room_for(8 * length / 10);
  begin("buzz_read_capture");
  with("due", p->state.due), with("length", (int64_t)length), with("disparity", d0), with("room", (int64_t)room);
  lent *c = lend(bytes, length), *l = lend_state(p->bytes, BUZZ_READER_BYTES), *dd = lend(&d0, sizeof d0), *e = lend(NULL, 4 * room);
  lent *count = lend(NULL, sizeof(size_t));
  judge(buzz_read_capture(c->archive, length, A(buzz_reader, l), A(int32_t, dd), A(uint32_t, e), room, A(size_t, count)),
        ref_read_capture(c->reference, length, &p->state, R(int32_t, dd), R(uint32_t, e), room, R(size_t, count)));
  if (memcmp(&old, &p->state, sizeof old) == 0 && memcmp(l->archive, l->before, l->size) != 0) differs("a state changed where nothing happened");
  memcpy(p->bytes, l->archive, BUZZ_READER_BYTES);
  if (!p->strange) same_state(0, p->bytes, BUZZ_READER_BYTES, &p->state, sizeof p->state);
  give_back();
}

/* An accepted state is left dropping by an invalid character, with some allowed S, and is never refused afterwards; its S, or 0 if it was dropping. */
static uint32_t accepted(const buzz_reader *strange) {
  buzz_reader copy = *strange, dropping;
  uint32_t e, v, n, found = 0, its_size = 0;
  if (buzz_reader_step(&copy, 1, 0, 0, &e, &v, &n) != 0) differs("no answer twice the same");
  for (uint32_t size = 8; size <= 1024; size *= 2) {
    uint32_t e2, v2, n2;
    if (buzz_reader_fresh(size, &dropping) || buzz_reader_step(&dropping, 1, 0, 0, &e2, &v2, &n2)) differs("a fresh reader is refused");
    if (memcmp(&copy, &dropping, sizeof copy) == 0) found++, its_size = size;
  }
  int was_dropping = e == BUZZ_NOTHING && v == 0 && memcmp(&copy, strange, sizeof copy) == 0;
  if (found != 1 || n != 0 || !(was_dropping || (e == BUZZ_VIOLATION && v == 1))) differs("an invalid character leaves a strange state");
  copy = *strange;
  for (int i = 0; i < 20; i++) {
    struct symbol t = {one_in(8) ? below(3) : 0, below(256), 0};
    if (one_in(3)) t.control = 1, t.byte = twelve[below(12)];
    if (buzz_reader_step(&copy, t.violation, t.byte, t.control, &e, &v, &n) != 0) differs("a state handed back is refused");
  }
  return was_dropping ? 0 : its_size;
}

/* Whether a state was found to be what it is. After an end symbol nobody can tell how long the packet was, nor, outside data, of which kind. */
static int identified(const ref_reader *known, const ref_reader *found) {
  ref_reader k = *known, f = *found;
  if (k.due == CLOSING || k.due == CRC_FIRST) {
    ref_packet *last = k.priority.open ? &k.priority : &k.data, *same = f.priority.open ? &f.priority : &f.data;
    if (last->crc != same->crc || (k.due == CLOSING && last->head != same->head)) return 0;
    memset(last, 0, sizeof *last), memset(same, 0, sizeof *same);
  }
  return memcmp(&k, &f, sizeof k) == 0;
}

/* Bytes that nobody made. The reference does not know how the archive keeps a state, so the archive is asked, with an invalid character, which is
 * refused for the state alone. What it refuses once it refuses always; what it accepts must behave as a state, and as one of the reference's. */
static void broken(const struct pair *p) {
  struct pair strange = *p;
  buzz_reader copy;
  uint32_t e, v, n;
  int whole = one_in(6); /* whole bytes check the identification itself */
  if (!whole) break_bytes(strange.bytes, sizeof strange.bytes, pairs[below(READERS)].bytes);
  memcpy(copy.bytes, strange.bytes, sizeof copy.bytes);
  begin("buzz_reader_step of broken bytes");
  (void)lend_state(strange.bytes, sizeof strange.bytes);
  uint32_t size = 0, answer = buzz_reader_step(&copy, 1, 0, 0, &e, &v, &n);
  if (answer > 1) differs("a refusal that a step does not have");
  memcpy(copy.bytes, strange.bytes, sizeof copy.bytes);
  if (answer == 0) size = accepted(&copy);
  strange.state.broken = answer;
  strange.strange = 1;
  strange.slips = answer ? 2 : 40;
  if (size && one_in(p->state.due == OPEN ? 12 : 2)) identify_reader(&copy, size, &strange.state); /* some tens of thousands of questions */
  else size = 0;
  uint32_t due = strange.state.due, told = due != CLOSING && due != CRC_FIRST && due != CRC_SECOND && due != LMP_CHECK; /* nothing is left open */
  if (size && told) same_state(0, strange.bytes, BUZZ_READER_BYTES, &strange.state, sizeof strange.state);
  if (whole && (answer || (size && due != CRC_SECOND && due != LMP_CHECK && !identified(&p->state, &strange.state)))) differs("a state is taken for another");
  give_back();
  for (int i = 0; (answer && i < 4) || (size && i < 200); i++) {
    if (one_in(6)) a_capture(&strange);
    else a_step(&strange);
  }
}

void reader_step(void) {
  static struct pair thrown_away;
  struct pair *p = &pairs[below(READERS)];
  if (one_in(60)) a_fresh(&thrown_away);
  else if (!p->made || one_in(3000)) a_fresh(p);
  else if (one_in(2000)) *p = pairs[below(READERS)]; /* a state may be copied */
  else if (one_in(60)) broken(p);
  else if (one_in(20)) a_capture(p);
  else a_step(p);
}
