/* CRC-16 by a table of 256, and a data packet through the table of characters. Included after characters.c, whose table it shares. */
#include "plain.h"

static uint16_t crc_of_byte[256];

void plain_crc_table(void) {
  for (unsigned i = 0; i < 256; i++) {
    unsigned r = i;
    for (int k = 0; k < 8; k++) r = r & 1 ? r >> 1 ^ 0x8408 : r >> 1;
    crc_of_byte[i] = (uint16_t)r;
  }
}

static inline uint16_t crc_step(uint16_t r, uint8_t byte) { return (uint16_t)(r >> 8 ^ crc_of_byte[(r ^ byte) & 255]); }

/* The check bytes are the register's complement, low byte first. */
CALL void plain_crc16(const uint8_t *bytes, size_t length, uint8_t check[2]) {
  uint16_t r = 0xFFFF;
  for (size_t i = 0; i < length; i++) r = crc_step(r, bytes[i]);
  check[0] = ~r & 255;
  check[1] = ~r >> 8 & 255;
}

static inline unsigned put(uint16_t *out, unsigned plus, unsigned symbol) {
  unsigned c = characters_of[plus][symbol];
  *out = c & 1023;
  return c >> 10;
}

/* The CRC and the characters in one pass. */
static inline size_t put_packet(unsigned start, unsigned opening, const uint8_t *restrict bytes, size_t length, unsigned bad, int32_t *disparity,
                                uint16_t *restrict out) {
  unsigned p = *disparity > 0;
  uint16_t r = 0xFFFF;
  p = put(out++, p, start);
  p = put(out++, p, opening);
  for (size_t i = 0; i < length; i++) {
    r = crc_step(r, bytes[i]);
    p = put(out++, p, bytes[i]);
  }
  r = (uint16_t)~r;
  p = put(out++, p, bad ? 0x1FE : 0x1FD);
  p = put(out++, p, opening);
  p = put(out++, p, r & 255);
  p = put(out++, p, r >> 8);
  *disparity = p ? 1 : -1;
  return length + 6;
}

CALL size_t plain_write_data_trusting(uint32_t channel, const uint8_t *bytes, size_t length, uint32_t bad, int32_t *disparity, uint16_t *characters) {
  return put_packet(0x15C, channel, bytes, length, bad, disparity, characters);
}

CALL uint32_t plain_write_data(uint32_t channel, const uint8_t *bytes, size_t length, uint32_t bad, int32_t *disparity, uint16_t *characters,
                               size_t room, size_t *count) {
  if (!is_disparity(*disparity) || channel > 255) return BUZZ_OUT_OF_RANGE;
  if (length == 0) return BUZZ_NO_BYTES;
  if (room < 6 || room - 6 < length) return BUZZ_SHORT_OUTPUT;
  *count = put_packet(0x15C, channel, bytes, length, bad, disparity, characters);
  return BUZZ_OK;
}
