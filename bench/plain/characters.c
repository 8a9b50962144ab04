/* Characters: two tables, made once from the block lists of clause 36. */
#include "plain.h"

static const char SIX_BLOCKS[] = "100111 011101 101101 110001 110101 101001 011001 111000 111001 100101 010101 110100 001101 101100 011100 010111 "
                                 "011011 100011 010011 110010 001011 101010 011010 111010 110011 100110 010110 110110 001110 101110 011110 101011";
static const char FOUR_BLOCKS[] = "1011 1001 0101 1100 1101 1010 0110 1110";
static const char CONTROL_FOUR_BLOCKS[] = "1011 0110 1010 1100 1101 0101 1001 0111";
static const uint8_t CONTROL_BYTES[12] = {0x1C, 0x3C, 0x5C, 0x7C, 0x9C, 0xBC, 0xDC, 0xFC, 0xF7, 0xFB, 0xFD, 0xFE};

#define NOT_WRITABLE 0xFFFF

/* At -1, then at +1. A packed result for each character; and for each symbol its character, with 1024 for a closing disparity of +1. */
static uint16_t results_of[2 * 1024];
static uint16_t characters_of[2][512];

static unsigned bits(const char *text, unsigned n) {
  unsigned b = 0;
  while (n--) b = 2 * b + (*text++ == '1');
  return b;
}

static unsigned ones(unsigned b) {
  unsigned n = 0;
  for (; b; b /= 2) n += b % 2;
  return n;
}

static unsigned character_of(unsigned byte, unsigned control, unsigned plus) {
  unsigned x = byte % 32, y = byte / 32;
  unsigned six = control && x == 28 ? 15 : bits(SIX_BLOCKS + 7 * x, 6);
  if (plus && (control || ones(six) != 3 || x == 7)) six ^= 63;
  if (ones(six) != 3) plus = !plus;
  unsigned four = bits((control ? CONTROL_FOUR_BLOCKS : FOUR_BLOCKS) + 5 * y, 4);
  if (plus && (control || ones(four) != 2 || y == 3)) four ^= 15;
  if (!control && y == 7 && !plus && (x == 17 || x == 18 || x == 20)) four = 7;
  if (!control && y == 7 && plus && (x == 11 || x == 13 || x == 14)) four = 8;
  if (ones(four) != 2) plus = !plus;
  return six << 4 | four | plus << 10;
}

/* A symbol read where it is clean, and at the other disparity unless something else is clean there. */
static void enter(unsigned byte, unsigned control, unsigned plus, unsigned violation, unsigned at) {
  unsigned c = character_of(byte, control, plus);
  results_of[at * 1024 + c % 1024] = (uint16_t)(byte | control << 8 | violation << 9 | c / 1024 << 11);
}

static void enter_all(unsigned violation) {
  for (unsigned plus = 0; plus < 2; plus++) {
    unsigned at = violation ? !plus : plus;
    for (unsigned byte = 0; byte < 256; byte++) enter(byte, 0, plus, violation, at);
    for (unsigned i = 0; i < 12; i++) enter(CONTROL_BYTES[i], 1, plus, violation, at);
  }
}

void plain_crc_table(void);

void plain_tables(void) {
  for (unsigned i = 0; i < 2048; i++) results_of[i] = (uint16_t)(512 | (i / 1024) << 11);
  enter_all(2);
  enter_all(0);
  for (unsigned plus = 0; plus < 2; plus++) {
    for (unsigned i = 0; i < 512; i++) characters_of[plus][i] = i < 256 ? (uint16_t)character_of(i, 0, plus) : NOT_WRITABLE;
    for (unsigned i = 0; i < 12; i++)
      if (CONTROL_BYTES[i] != 0xFC) characters_of[plus][256 + CONTROL_BYTES[i]] = (uint16_t)character_of(CONTROL_BYTES[i], 1, plus);
  }
  plain_crc_table();
}

static inline int is_disparity(int32_t d) { return d == 1 || d == -1; }

CALL void plain_read_character_trusting(uint32_t character, int32_t *disparity, uint32_t *violation, uint32_t *byte, uint32_t *control) {
  unsigned r = results_of[(*disparity > 0) * 1024 + character];
  *disparity = r >> 11 ? 1 : -1;
  *violation = r >> 9 & 3;
  *byte = r & 255;
  *control = r >> 8 & 1;
}

CALL uint32_t plain_read_character(uint32_t character, int32_t *disparity, uint32_t *violation, uint32_t *byte, uint32_t *control) {
  if (character > 1023 || !is_disparity(*disparity)) return BUZZ_OUT_OF_RANGE;
  unsigned r = results_of[(*disparity > 0) * 1024 + character];
  *disparity = r >> 11 ? 1 : -1;
  *violation = r >> 9 & 3;
  *byte = r & 255;
  *control = r >> 8 & 1;
  return BUZZ_OK;
}

static inline void read_each(const uint16_t *restrict characters, size_t count, int32_t *disparity, uint16_t *restrict results) {
  unsigned r = *disparity > 0 ? 2048 : 0;
  for (size_t i = 0; i < count; i++) {
    r = results_of[(r >> 1 & 1024) + characters[i]];
    results[i] = (uint16_t)r;
  }
  *disparity = r >> 11 ? 1 : -1;
}

CALL void plain_read_characters_trusting(const uint16_t *characters, size_t count, int32_t *disparity, uint16_t *results) {
  read_each(characters, count, disparity, results);
}

static inline int all_in_range(const uint16_t *characters, size_t count) {
  unsigned all = 0;
  for (size_t i = 0; i < count; i++) all |= characters[i];
  return all < 1024;
}

CALL uint32_t plain_read_characters(const uint16_t *characters, size_t count, int32_t *disparity, uint16_t *results, size_t results_count) {
  if (!is_disparity(*disparity) || !all_in_range(characters, count)) return BUZZ_OUT_OF_RANGE;
  if (results_count < count) return BUZZ_SHORT_OUTPUT;
  read_each(characters, count, disparity, results);
  return BUZZ_OK;
}

CALL void plain_write_character_trusting(uint32_t byte, uint32_t control, int32_t *disparity, uint32_t *character) {
  unsigned c = characters_of[*disparity > 0][byte + (control ? 256 : 0)];
  *character = c & 1023;
  *disparity = c >> 10 ? 1 : -1;
}

CALL uint32_t plain_write_character(uint32_t byte, uint32_t control, int32_t *disparity, uint32_t *character) {
  if (byte > 255 || !is_disparity(*disparity)) return BUZZ_OUT_OF_RANGE;
  unsigned c = characters_of[*disparity > 0][byte + (control ? 256 : 0)];
  if (c == NOT_WRITABLE) return BUZZ_NOT_WRITABLE;
  *character = c & 1023;
  *disparity = c >> 10 ? 1 : -1;
  return BUZZ_OK;
}
