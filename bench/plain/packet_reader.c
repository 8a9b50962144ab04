/* The packet reader: a struct of state and one switch on what is due. Included after the other files, whose tables it shares. */
#include "plain.h"

enum {
  COM = 0xBC,
  IDL = 0x1C,
  SPP = 0x3C,
  SDP = 0x5C,
  CPP = 0x9C,
  CDP = 0xDC,
  ALN = 0x7C,
  SLP = 0xF7,
  SUP = 0xFB,
  EGP = 0xFD,
  EBP = 0xFE,
  K28_7 = 0xFC
};
enum { FREE, DROPPING, IDLES, CHANNEL, OPENING, CLOSING, FIRST_CRC, SECOND_CRC, LMP_TYPE, LMP_NUMBER, LMP_CHECK };

/* An event in one number: 65,536 times the event, 256 times the number, and the value. */
#define EVENT(event, value, number) ((uint32_t)(event) << 16 | (uint32_t)(number) << 8 | (uint32_t)(value))

static inline int is_size(uint32_t s) { return s >= 8 && s <= 1024 && (s & (s - 1)) == 0; }

CALL uint32_t plain_reader_fresh(uint32_t size, plain_reader *reader) {
  if (!is_size(size)) return BUZZ_SEGMENT_SIZE;
  *reader = (plain_reader){.size = (uint16_t)size};
  return BUZZ_OK;
}

static inline uint32_t violated(plain_reader *r, unsigned n) {
  r->data = r->priority = 0;
  r->phase = DROPPING;
  return EVENT(BUZZ_VIOLATION, n, 0);
}

static inline uint32_t user_byte(plain_reader *r, unsigned byte) {
  if (r->priority) {
    if (r->count == r->size) return violated(r, 10);
    r->count++;
    r->register_of_priority = crc_step(r->register_of_priority, (uint8_t)byte);
  } else if (r->data) {
    r->data = 2;
    r->register_of_data = crc_step(r->register_of_data, (uint8_t)byte);
  } else {
    return byte ? violated(r, 9) : BUZZ_NOTHING;
  }
  return EVENT(BUZZ_BYTE, byte, 0);
}

static inline uint32_t packet_end(plain_reader *r, unsigned byte) {
  uint16_t check = (uint16_t) ~(r->priority ? r->register_of_priority : r->register_of_data);
  uint32_t end = (check & 255) == r->second && check >> 8 == byte ? EVENT(BUZZ_END, r->first, 0) : EVENT(BUZZ_VIOLATION, 6, 0);
  if (r->priority) r->priority = 0;
  else r->data = 0;
  r->phase = FREE;
  return end;
}

static inline uint32_t lmp(plain_reader *r, unsigned byte) {
  r->phase = FREE;
  if (byte != (r->first ^ r->second)) return EVENT(BUZZ_VIOLATION, 7, 0);
  if (r->second > 15 || (r->first != 0x20 && r->first != 0x21)) return BUZZ_NOTHING;
  return EVENT(BUZZ_LMP, r->first & 1, r->second);
}

static inline uint32_t data_symbol(plain_reader *r, unsigned byte) {
  switch (r->phase) {
  case FREE: return user_byte(r, byte);
  case DROPPING: return BUZZ_NOTHING;
  case CHANNEL:
    r->data = 1;
    r->channel = (uint8_t)byte;
    r->register_of_data = 0xFFFF;
    r->phase = FREE;
    return EVENT(BUZZ_START_DATA, byte, 0);
  case OPENING:
    r->priority = 1;
    r->opening = (uint8_t)byte;
    r->count = 0;
    r->register_of_priority = 0xFFFF;
    r->phase = FREE;
    return EVENT(BUZZ_START_PRIORITY, byte & 15, byte >> 4);
  case CLOSING:
    if (byte != (r->priority ? r->opening : r->channel)) return violated(r, 5);
    r->phase = FIRST_CRC;
    return BUZZ_NOTHING;
  case FIRST_CRC:
    r->second = (uint8_t)byte;
    r->phase = SECOND_CRC;
    return BUZZ_NOTHING;
  case SECOND_CRC: return packet_end(r, byte);
  case LMP_TYPE:
    r->first = (uint8_t)byte;
    r->phase = LMP_NUMBER;
    return BUZZ_NOTHING;
  case LMP_NUMBER:
    r->second = (uint8_t)byte;
    r->phase = LMP_CHECK;
    return BUZZ_NOTHING;
  case LMP_CHECK: return lmp(r, byte);
  default: return violated(r, 4); /* IDLES */
  }
}

static inline uint32_t due(plain_reader *r, unsigned phase) {
  r->phase = (uint8_t)phase;
  return BUZZ_NOTHING;
}

static inline uint32_t opener(plain_reader *r, unsigned byte) {
  if (byte == SLP) return due(r, LMP_TYPE);
  if (byte == SPP) return r->priority ? violated(r, 4) : due(r, OPENING);
  return r->priority || r->data ? violated(r, 4) : due(r, CHANNEL);
}

static inline uint32_t control_symbol(plain_reader *r, unsigned byte) {
  if (r->phase == DROPPING) return byte == SDP || byte == SPP || byte == SLP ? opener(r, byte) : BUZZ_NOTHING;
  if (byte == K28_7) return violated(r, 3);
  if (r->phase == IDLES) {
    if (byte != IDL) return violated(r, 4);
    if (--r->first == 0) r->phase = FREE;
    return BUZZ_NOTHING;
  }
  if (r->phase != FREE) return violated(r, 4);
  switch (byte) {
  case IDL: return BUZZ_NOTHING;
  case COM: r->first = 3; return due(r, IDLES);
  case SDP:
  case SPP:
  case SLP: return opener(r, byte);
  case EGP:
  case EBP:
    if (!r->priority && !r->data) return violated(r, 4);
    if (r->priority ? r->count == 0 : r->data == 1) return violated(r, 8);
    r->first = byte == EBP;
    return due(r, CLOSING);
  default: return violated(r, 4);
  }
}

/* One step on bits 0 to 10 of a packed result. */
__attribute__((always_inline)) static inline uint32_t step(plain_reader *r, unsigned result) {
  unsigned violation = result >> 9 & 3;
  if (violation) return r->phase == DROPPING ? BUZZ_NOTHING : violated(r, violation);
  return result & 256 ? control_symbol(r, result & 255) : data_symbol(r, result & 255);
}

/* The state's written rule. */
static inline int is_ruled(const plain_reader *r) {
  int outside = !r->priority && !r->data;
  if (!is_size(r->size) || r->data > 2 || r->priority > 1 || r->phase > LMP_CHECK) return 0;
  if (r->data == 1 && r->register_of_data != 0xFFFF) return 0;
  if (r->priority && (r->count > r->size || (r->count == 0 && r->register_of_priority != 0xFFFF))) return 0;
  switch (r->phase) {
  case DROPPING:
  case CHANNEL: return outside;
  case IDLES: return r->first >= 1 && r->first <= 3;
  case OPENING: return !r->priority;
  case CLOSING:
  case FIRST_CRC:
  case SECOND_CRC: return r->first <= 1 && (r->priority ? r->count > 0 : r->data == 2);
  default: return 1;
  }
}

static inline int is_control(unsigned byte) { return (byte & 31) == 28 || byte == SLP || byte == SUP || byte == EGP || byte == EBP; }

CALL void plain_reader_step_trusting(plain_reader *reader, uint32_t violation, uint32_t byte, uint32_t control, uint32_t *event, uint32_t *value,
                                     uint32_t *number) {
  uint32_t e = step(reader, byte | (control ? 256 : 0) | violation << 9);
  *event = e >> 16;
  *value = e & 255;
  *number = e >> 8 & 255;
}

CALL uint32_t plain_reader_step(plain_reader *reader, uint32_t violation, uint32_t byte, uint32_t control, uint32_t *event, uint32_t *value,
                                uint32_t *number) {
  if (violation > 2 || !is_ruled(reader)) return BUZZ_OUT_OF_RANGE;
  if (violation != 1 && (byte > 255 || (control && !is_control(byte)))) return BUZZ_OUT_OF_RANGE;
  uint32_t e = step(reader, (byte & 255) | (control ? 256 : 0) | violation << 9);
  *event = e >> 16;
  *value = e & 255;
  *number = e >> 8 & 255;
  return BUZZ_OK;
}

/* The result of character i of a capture, after the result before it. */
static inline unsigned result_at(const uint8_t *b, size_t i, unsigned before) {
  const uint8_t *two = b + i + i / 4;
  return results_of[(before >> 1 & 1024) + ((unsigned)(two[0] << 8 | two[1]) >> (6 - i % 4 * 2) & 1023)];
}

/* A whole capture: unpacked, read and stepped in one loop, with the state in a copy; the bytes of a data packet, most of a line, in a loop of their own. */
static inline void read_capture(const uint8_t *restrict b, size_t count, plain_reader *reader, int32_t *disparity, uint32_t *restrict events) {
  plain_reader r = *reader;
  unsigned result = *disparity > 0 ? 2048 : 0;
  size_t i = 0;
  while (i < count) {
    result = result_at(b, i, result);
    events[i++] = step(&r, result);
    if (r.phase != FREE || r.data != 2 || r.priority) continue;
    uint16_t crc = r.register_of_data;
    for (; i < count; i++) {
      unsigned next = result_at(b, i, result);
      if (next & 0x700) break;
      result = next;
      crc = crc_step(crc, (uint8_t)result);
      events[i] = EVENT(BUZZ_BYTE, result & 255, 0);
    }
    r.register_of_data = crc;
  }
  *reader = r;
  *disparity = result >> 11 ? 1 : -1;
}

CALL size_t plain_read_capture_trusting(const uint8_t *capture, size_t length, plain_reader *reader, int32_t *disparity, uint32_t *events) {
  read_capture(capture, 8 * length / 10, reader, disparity, events);
  return 8 * length / 10;
}

CALL uint32_t plain_read_capture(const uint8_t *capture, size_t length, plain_reader *reader, int32_t *disparity, uint32_t *events, size_t room,
                                 size_t *count) {
  if (!is_capture(capture, length)) return BUZZ_BAD_CAPTURE;
  if (!is_ruled(reader) || !is_disparity(*disparity)) return BUZZ_OUT_OF_RANGE;
  if (room < 8 * length / 10) return BUZZ_SHORT_OUTPUT;
  read_capture(capture, 8 * length / 10, reader, disparity, events);
  *count = 8 * length / 10;
  return BUZZ_OK;
}
