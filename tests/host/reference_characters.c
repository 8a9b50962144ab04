/* Characters and captures, by document 01's lists and sentences: reading is a search through what writing gives. */
#include "reference.h"
#include <string.h>

/* Blocks at -1, as document 01 prints them. */
static const char *const six_blocks[32] = {
  "100111", "011101", "101101", "110001", "110101", "101001", "011001", "111000",
  "111001", "100101", "010101", "110100", "001101", "101100", "011100", "010111",
  "011011", "100011", "010011", "110010", "001011", "101010", "011010", "111010",
  "110011", "100110", "010110", "110110", "001110", "101110", "011110", "101011"};
static const char *const data_blocks[8] = {"1011", "1001", "0101", "1100", "1101", "1010", "0110", "1110"};
static const char *const control_blocks[8] = {"1011", "0110", "1010", "1100", "1101", "0101", "1001", "0111"};

int ref_is_control(uint32_t byte) {
  uint32_t x = byte & 31, y = byte >> 5;
  if (byte > 255) return 0;
  return x == 28 || (y == 7 && (x == 23 || x == 27 || x == 29 || x == 30));
}

/* Ones less zeros. */
static int balance(const char *block) {
  int sum = 0;
  for (; *block; block++) sum += *block == '1' ? 1 : -1;
  return sum;
}

/* The bits of a block, complemented or not, behind those that are there. */
static uint32_t behind(uint32_t bits, const char *block, int complemented) {
  for (; *block; block++) bits = 2 * bits + (uint32_t)((*block == '1') != complemented);
  return bits;
}

/* The character of a symbol, one of the twelve if control, at a disparity, which becomes the closing one. */
static uint32_t character_of(uint32_t byte, uint32_t control, int32_t *disparity) {
  uint32_t x = byte & 31, y = byte >> 5;
  int32_t d = *disparity, start = d;
  const char *six = control && x == 28 ? "001111" : six_blocks[x];
  uint32_t bits = behind(0, six, d == 1 && (control || balance(six) != 0 || x == 7));
  if (balance(six) != 0) d = -d;
  const char *four = control ? control_blocks[y] : data_blocks[y];
  int32_t at = WRONG == 1 ? start : d;
  int complemented = at == 1 && (control || balance(four) != 0 || y == 3);
  if (!control && y == 7 && at == -1 && (x == 17 || x == 18 || x == 20)) four = "0111";
  if (!control && y == 7 && at == 1 && (x == 11 || x == 13 || x == 14)) four = "1000", complemented = 0;
  bits = behind(bits, four, complemented);
  if (balance(four) != 0) d = -d;
  *disparity = d;
  return bits;
}

static int is_disparity(int32_t d) { return d == -1 || d == 1; }

uint32_t ref_write_character(uint32_t byte, uint32_t control, int32_t *disparity, uint32_t *character) {
  int unwritable = control && (!ref_is_control(byte) || byte == 0xFC);
  if (WRONG == 2 && unwritable) return 3;
  if (byte > 255 || !is_disparity(*disparity)) return 1;
  if (unwritable) return 3;
  *character = character_of(byte, control != 0, disparity);
  return 0;
}

/* For each character and disparity (0: -1, 1: +1) whether it is legal there, its symbol and the closing disparity. */
static struct entry { int legal; uint32_t byte, control; int32_t closing; } entries[1024][2];

static void make_entries(void) {
  static int made;
  if (made) return;
  made = 1;
  for (uint32_t control = 0; control < 2; control++)
    for (uint32_t byte = 0; byte < 256; byte++)
      for (int32_t d = -1; d <= 1; d += 2) {
        if (control && !ref_is_control(byte)) continue;
        struct entry e = {1, byte, control, d};
        uint32_t c = character_of(byte, control, &e.closing);
        entries[c][d == 1] = e;
      }
}

uint32_t ref_read_character(uint32_t character, int32_t *disparity, uint32_t *violation, uint32_t *byte, uint32_t *control) {
  if (character > 1023 || !is_disparity(*disparity)) return 1;
  make_entries();
  const struct entry *here = &entries[character][*disparity == 1], *other = &entries[character][*disparity != 1];
  const struct entry *e = here->legal ? here : other;
  if (WRONG == 3 && e->control && e->byte == 0xFC) e = &entries[0][0];
  if (!e->legal) {
    *violation = 1, *byte = 0, *control = 0;
    return 0;
  }
  *violation = e == here ? 0 : 2;
  *byte = e->byte;
  *control = e->control;
  if (!(WRONG == 4 && e == other)) *disparity = e->closing;
  return 0;
}

uint32_t ref_read_characters(const uint16_t *characters, size_t count, int32_t *disparity, uint16_t *results, size_t results_count) {
  if (WRONG == 5 && results_count < count) return 6;
  if (!is_disparity(*disparity)) return 1;
  for (size_t i = 0; i < count; i++)
    if (characters[i] > 1023) return 1;
  if (results_count < count) return 6;
  for (size_t i = 0; i < count; i++) {
    uint32_t violation, byte, control;
    (void)ref_read_character(characters[i], disparity, &violation, &byte, &control);
    results[i] = (uint16_t)(byte + 256 * control + 512 * violation + (*disparity == 1 ? 2048 : 0));
  }
  return 0;
}

/* The i-th bit of a capture, most significant first. */
static uint32_t bit_at(const uint8_t *capture, size_t i) { return (uint32_t)(capture[i / 8] >> (7 - i % 8)) & 1; }

uint32_t ref_capture_count(const uint8_t *capture, size_t length, size_t *count) {
  if (length > 65535 || length % 5 == 1) return 8;
  size_t characters = 8 * length / 10;
  for (size_t i = 10 * characters; i < 8 * length; i++)
    if (bit_at(capture, i) && !(WRONG == 6 && i == 8 * length - 1)) return 8;
  *count = characters;
  return 0;
}

static uint32_t at_place(const uint8_t *capture, size_t place) {
  uint32_t bits = 0;
  for (size_t i = 0; i < 10; i++) bits = 2 * bits + bit_at(capture, 10 * place + i);
  return bits;
}

uint32_t ref_capture_character(const uint8_t *capture, size_t length, size_t place, uint32_t *character) {
  size_t characters = 0;
  if (ref_capture_count(capture, length, &characters)) return 8;
  if (WRONG == 7 && characters > 0 && place == characters) place--;
  if (place >= characters) return 1;
  *character = at_place(capture, place);
  return 0;
}

uint32_t ref_pack(const uint16_t *characters, size_t count, uint8_t *capture, size_t room, size_t *bytes) {
  size_t length = (10 * count + 7) / 8;
  if (length > 65535) return 8;
  if (WRONG == 8 && room < length) return 6;
  for (size_t i = 0; i < count; i++)
    if (characters[i] > 1023) return 1;
  if (room < length) return 6;
  memset(capture, 0, length);
  for (size_t i = 0; i < 10 * count; i++)
    if (characters[i / 10] >> (9 - i % 10) & 1) capture[i / 8] = (uint8_t)(capture[i / 8] | 128 >> i % 8);
  *bytes = length;
  return 0;
}

uint32_t ref_unpack(const uint8_t *capture, size_t length, uint16_t *characters, size_t room, size_t *count) {
  size_t n = 0;
  if (ref_capture_count(capture, length, &n)) return 8;
  if (room < n + (WRONG == 9)) return 6;
  for (size_t i = 0; i < n; i++) characters[i] = (uint16_t)at_place(capture, i);
  *count = n;
  return 0;
}
