/* Packing: four characters into five bytes at a time. */
#include "plain.h"

#define MOST_BYTES 65535
#define MOST_CHARACTERS 52428

static inline size_t pack(const uint16_t *restrict c, size_t count, uint8_t *restrict o) {
  size_t n = (10 * count + 7) / 8;
  for (; count >= 4; count -= 4, c += 4, o += 5) {
    uint32_t low = (uint32_t)c[0] << 30 | (uint32_t)c[1] << 20 | (uint32_t)c[2] << 10 | c[3];
    o[0] = (uint8_t)(c[0] >> 2);
    o[1] = (uint8_t)(low >> 24);
    o[2] = (uint8_t)(low >> 16);
    o[3] = (uint8_t)(low >> 8);
    o[4] = (uint8_t)low;
  }
  unsigned held = 0, waiting = 0;
  for (; count; count--) {
    held = held << 10 | *c++;
    for (waiting += 10; waiting >= 8; waiting -= 8) *o++ = (uint8_t)(held >> (waiting - 8));
  }
  if (waiting) *o = (uint8_t)(held << (8 - waiting));
  return n;
}

static inline size_t unpack(const uint8_t *restrict b, size_t length, uint16_t *restrict c) {
  size_t n = 8 * length / 10, left = n;
  for (; left >= 4; left -= 4, b += 5, c += 4) {
    uint32_t low = (uint32_t)b[1] << 24 | (uint32_t)b[2] << 16 | (uint32_t)b[3] << 8 | b[4];
    c[0] = (uint16_t)(b[0] << 2 | b[1] >> 6);
    c[1] = low >> 20 & 1023;
    c[2] = low >> 10 & 1023;
    c[3] = low & 1023;
  }
  for (unsigned shift = 6; left; left--, b++, shift -= 2) *c++ = (b[0] << 8 | b[1]) >> shift & 1023;
  return n;
}

CALL size_t plain_pack_trusting(const uint16_t *characters, size_t count, uint8_t *capture) { return pack(characters, count, capture); }

CALL uint32_t plain_pack(const uint16_t *characters, size_t count, uint8_t *capture, size_t room, size_t *bytes) {
  if (count > MOST_CHARACTERS) return BUZZ_BAD_CAPTURE;
  unsigned all = 0;
  for (size_t i = 0; i < count; i++) all |= characters[i];
  if (all > 1023) return BUZZ_OUT_OF_RANGE;
  if (room < (10 * count + 7) / 8) return BUZZ_SHORT_OUTPUT;
  *bytes = pack(characters, count, capture);
  return BUZZ_OK;
}

CALL size_t plain_unpack_trusting(const uint8_t *capture, size_t length, uint16_t *characters) { return unpack(capture, length, characters); }

static inline int is_capture(const uint8_t *capture, size_t length) {
  if (length > MOST_BYTES || length % 5 == 1) return 0;
  return length == 0 || capture[length - 1] % (1u << (8 * length % 10)) == 0;
}

CALL uint32_t plain_unpack(const uint8_t *capture, size_t length, uint16_t *characters, size_t room, size_t *count) {
  if (!is_capture(capture, length)) return BUZZ_BAD_CAPTURE;
  if (room < 8 * length / 10) return BUZZ_SHORT_OUTPUT;
  *count = unpack(capture, length, characters);
  return BUZZ_OK;
}
