/* The inputs, from a fixed seed: bytes, and a line with everything on it: data packets with priority packets and LMPs inside, idle sequences, some damage. */
#include "plain/plain.h"
#include <string.h>

#define RUN 1024      /* characters of one call of the bulk jobs */
#define LINE 8192     /* characters of the capture */
#define CAPTURE 10240 /* its bytes */
#define LONG 16384    /* bytes of the long packet */
#define SIZE 64       /* S of the line's reader */

static uint8_t bytes[LONG];
static uint16_t line[LINE];    /* as it is received */
static uint16_t symbols[LINE]; /* as it was written: the byte, and 256 for control */
static uint16_t results[LINE];
static uint8_t capture[CAPTURE];

static uint32_t seed = 1;
static uint32_t random_below(uint32_t n) {
  seed = seed * 1664525 + 1013904223;
  return (seed >> 16) % n;
}

static size_t length;
static void symbol(unsigned s) {
  if (length < LINE) symbols[length++] = (uint16_t)s;
}
static void control(unsigned byte) { symbol(256 + byte); }

static void idles(void) {
  control(COM);
  control(IDL);
  control(IDL);
  control(IDL);
}
static void reply(void) {
  unsigned t = 0x20 + random_below(2), n = random_below(16);
  control(SLP);
  symbol(t);
  symbol(n);
  symbol(t ^ n);
}

static void ending(unsigned opening, uint16_t r) {
  control(random_below(8) ? EGP : EBP);
  symbol(opening);
  symbol(~r & 255);
  symbol(~r >> 8 & 255);
}

static unsigned beginning(unsigned start) {
  unsigned opening = random_below(256);
  control(start);
  symbol(opening);
  return opening;
}

/* A user byte; the CRC's register after it. */
static uint16_t one_byte(uint16_t r) {
  unsigned b = random_below(256);
  symbol(b);
  return crc_step(r, (uint8_t)b);
}

static void priority(void) {
  unsigned opening = beginning(SPP), n = 1 + random_below(SIZE);
  uint16_t r = 0xFFFF;
  while (n--) r = one_byte(r);
  ending(opening, r);
}

static void data(void) {
  unsigned opening = beginning(SDP), n = 64 + random_below(256);
  uint16_t r = 0xFFFF;
  while (n--) {
    r = one_byte(r);
    if (!random_below(200)) priority();
    if (!random_below(200)) reply();
    if (!random_below(400)) idles();
  }
  ending(opening, r);
}

static void make_inputs(void) {
  int32_t d = -1;
  for (uint32_t i = 0; i < LONG; i++) bytes[i] = (uint8_t)(i * i * 40503u >> 7);
  while (length < LINE) {
    data();
    if (random_below(2)) reply();
    if (random_below(2)) idles();
    for (unsigned n = random_below(8); n; n--) symbol(0);
    if (!random_below(4)) priority();
  }
  for (size_t i = 0; i < LINE; i++) {
    uint32_t c;
    plain_write_character(symbols[i] & 255, symbols[i] & 256, &d, &c);
    line[i] = (uint16_t)c;
  }
  for (int k = 0; k < 4; k++) line[random_below(LINE)] ^= 1u << random_below(10); /* damage */
  d = -1;
  plain_read_characters(line, LINE, &d, results, LINE);
  plain_pack_trusting(line, LINE, capture);
}
