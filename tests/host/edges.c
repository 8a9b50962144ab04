/* Beside entries.c: every output at exactly the result's length, at one less and at one more; and the refusals that a call shares with others and that
 * entries.c tries at one of them. Outputs are heap blocks of exactly their length, so that a checker of memory sees one byte too much. */
#include "lent.h"
#include <stdlib.h>

/* What is lent beside the output under test. */
static struct lent {
  LENT
  uint16_t characters[8];
  uint8_t bytes[8], capture[8], buffers[64];
} m, before;

static void begin(void) {
  memset(&m, 0xA5, sizeof m);
  m.disparity = -1;
  m.characters[0] = 0xFA, m.characters[1] = 0, m.characters[2] = 0x2AA;
  m.capture[0] = 0x3E, m.capture[1] = 0xAA, m.capture[2] = 0xA0;
  for (size_t i = 0; i < sizeof m.bytes; i++) m.bytes[i] = (uint8_t)('1' + i);
  CHECK(buzz_reader_fresh(8, &m.reader) == BUZZ_OK);
  CHECK(buzz_sender_fresh(3, 8, &m.sender) == BUZZ_OK);
  CHECK(buzz_receiver_fresh(8, &m.receiver) == BUZZ_OK);
  CHECK(buzz_sender_offer(&m.sender, m.buffers, 64, 9, 1, m.bytes, 5, &m.a) == BUZZ_OK && m.a == 0);
}

/* ---- outputs ---- */

static uint32_t read_run(void *o, size_t n) { return buzz_read_characters(m.characters, 3, &m.disparity, o, n); }
static uint32_t pack(void *o, size_t n) { return buzz_pack(m.characters, 3, o, n, &m.n); }
static uint32_t unpack(void *o, size_t n) { return buzz_unpack(m.capture, 3, o, n, &m.n); }
static uint32_t read_capture(void *o, size_t n) { return buzz_read_capture(m.capture, 3, &m.reader, &m.disparity, o, n, &m.n); }
static uint32_t write_data(void *o, size_t n) { return buzz_write_data(200, m.bytes, 7, 1, &m.disparity, o, n, &m.n); }
static uint32_t write_priority(void *o, size_t n) { return buzz_write_priority(8, 3, 12, m.bytes, 8, 0, &m.disparity, o, n, &m.n); }
static uint32_t write_lmp(void *o, size_t n) { return buzz_write_lmp(1, 9, &m.disparity, o, n, &m.n); }
static uint32_t send(void *o, size_t n) { return buzz_sender_send(&m.sender, m.buffers, 64, o, n, &m.a, &m.b, &m.c, &m.d, &m.e); }
#define ARRIVE(number, channel, length, room, o, n) \
  buzz_receiver_arrival(&m.receiver, number, channel, 7, m.bytes, length, room, o, n, &m.a, &m.b, &m.c, &m.d, &m.e, &m.f)
static uint32_t arrival(void *o, size_t n) { return ARRIVE(0, 9, 6, 1, o, n); }

static int untouched(const uint8_t *bytes, size_t n) {
  for (size_t i = 0; i < n; i++)
    if (bytes[i] != 0xA5) return 0;
  return 1;
}

/* A call whose result has so many units of so many bytes, at three lengths of output. */
static void lengths(const char *name, uint32_t (*call)(void *, size_t), size_t unit, size_t needed) {
  struct lent after;
  uint8_t *exact = malloc(needed * unit);
  for (size_t n = needed - 1; n <= needed + 1; n++) {
    uint8_t *output = malloc(n * unit);
    if (!exact || !output) exit(2);
    memset(output, 0xA5, n * unit);
    begin();
    before = m;
    uint32_t answer = call(output, n);
    int right = n < needed ? answer == BUZZ_SHORT_OUTPUT && untouched(output, n * unit) && memcmp(&before, &m, sizeof m) == 0 : answer == BUZZ_OK;
    if (n == needed) memcpy(exact, output, n * unit), after = m;
    if (n > needed) right = right && untouched(output + needed * unit, unit) && memcmp(exact, output, needed * unit) == 0 && memcmp(&after, &m, sizeof m) == 0;
    if (!right) printf("edges.c: %s with an output of %u where %u are needed\n", name, (unsigned)n, (unsigned)needed), failures++;
    free(output);
  }
  /* something was stored, and the rest of the answer is there */
  CHECK(!untouched(exact, needed * unit) && memcmp(&before, &m, sizeof m) != 0);
  free(exact);
}

static void outputs(void) {
  lengths("buzz_read_characters", read_run, 2, 3);
  lengths("buzz_pack", pack, 1, 4);
  lengths("buzz_unpack", unpack, 2, 2);
  lengths("buzz_read_capture", read_capture, 4, 2);
  lengths("buzz_write_data", write_data, 2, 13);
  lengths("buzz_write_priority", write_priority, 2, 14);
  lengths("buzz_write_lmp", write_lmp, 2, 4);
  lengths("buzz_sender_send", send, 1, 5);
  lengths("buzz_receiver_arrival", arrival, 1, 6);
}

/* ---- refusals ---- */

#define DISPARITIES(call) do { \
    static const int32_t none[] = {0, 2, -2, 3, -3, 255, -255, 65535, 65537, INT32_MIN, INT32_MAX}; \
    for (size_t i = 0; i < sizeof none / sizeof none[0]; i++) { begin(); m.disparity = none[i]; REFUSED(BUZZ_OUT_OF_RANGE, call); } \
  } while (0)

static void refused_lines(void) {
  static uint16_t run[32];
  static uint32_t events[2];
  DISPARITIES(buzz_write_character(0, 0, &m.disparity, &m.a));
  DISPARITIES(buzz_read_character(0xFA, &m.disparity, &m.a, &m.b, &m.c));
  DISPARITIES(buzz_read_characters(m.characters, 3, &m.disparity, run, 0));
  DISPARITIES(buzz_read_characters(m.characters, 0, &m.disparity, run, 0));
  DISPARITIES(buzz_write_data(0, m.bytes, 0, 0, &m.disparity, run, 0, &m.n));
  DISPARITIES(buzz_write_priority(9, 0, 0, m.bytes, 0, 0, &m.disparity, run, 0, &m.n));
  DISPARITIES(buzz_write_lmp(0, 0, &m.disparity, run, 0, &m.n));
  DISPARITIES(buzz_read_capture(m.capture, 3, &m.reader, &m.disparity, events, 0, &m.n));
  DISPARITIES(buzz_read_capture(m.capture, 0, &m.reader, &m.disparity, events, 0, &m.n));
  for (uint32_t byte = 0; byte < 256; byte++) {
    int writable = ((byte & 31) == 28 && byte != 0xFC) || byte == 0xF7 || byte == 0xFB || byte == 0xFD || byte == 0xFE;
    begin();
    if (writable) CHECK(buzz_write_character(byte, 1, &m.disparity, &m.a) == BUZZ_OK);
    else REFUSED(BUZZ_NOT_WRITABLE, buzz_write_character(byte, 1, &m.disparity, &m.a));
    begin();
    if (writable || byte == 0xFC) CHECK(buzz_reader_step(&m.reader, 0, byte, 1, &m.a, &m.b, &m.c) == BUZZ_OK);
    else REFUSED(BUZZ_OUT_OF_RANGE, buzz_reader_step(&m.reader, 2, byte, 1, &m.a, &m.b, &m.c));
  }
  begin();
  REFUSED(BUZZ_OUT_OF_RANGE, buzz_read_character(UINT32_MAX, &m.disparity, &m.a, &m.b, &m.c));
  REFUSED(BUZZ_OUT_OF_RANGE, buzz_read_character(65536, &m.disparity, &m.a, &m.b, &m.c));
  REFUSED(BUZZ_OUT_OF_RANGE, buzz_reader_step(&m.reader, 256, 0, 0, &m.a, &m.b, &m.c));
  REFUSED(BUZZ_OUT_OF_RANGE, buzz_reader_step(&m.reader, 2, 256, 0, &m.a, &m.b, &m.c));
  CHECK(buzz_read_characters(m.characters, 0, &m.disparity, run, 0) == BUZZ_OK && m.disparity == -1);
  /* a COM, then a data byte where an IDL is due */
  CHECK(buzz_read_capture(m.capture, 3, &m.reader, &m.disparity, events, 2, &m.n) == BUZZ_OK && m.n == 2 && m.disparity == 1);
  CHECK(BUZZ_EVENT(events[0]) == BUZZ_NOTHING && BUZZ_EVENT(events[1]) == BUZZ_VIOLATION && BUZZ_VALUE(events[1]) == 4 && BUZZ_NUMBER(events[1]) == 0);
  memset(&m.reader, 0, sizeof m.reader);
  REFUSED(BUZZ_OUT_OF_RANGE, buzz_read_capture(m.capture, 3, &m.reader, &m.disparity, events, 0, &m.n));
  uint8_t check[3] = {0xA5, 0xA5, 0xA5};
  CHECK(buzz_crc16((const uint8_t *)"123456789", 9, check) == BUZZ_OK && check[0] == 0x6E && check[1] == 0x90 && check[2] == 0xA5);
  CHECK(buzz_crc16(m.bytes, 0, check) == BUZZ_OK && check[0] == 0 && check[1] == 0);
}

/* Lengths with remainder 1 by 5, and every length over 65535; 8 comes before a place and before the output. */
static void refused_captures(void) {
  static uint8_t zeros[65546];
  static uint16_t run[52440];
  static uint32_t events[52429];
  static const size_t wrong[] = {1, 6, 11, 65531, 65536, 65537, 65540, 65546};
  begin();
  events[52428] = 7;
  for (size_t i = 0; i < sizeof wrong / sizeof wrong[0]; i++) {
    REFUSED(BUZZ_BAD_CAPTURE, buzz_capture_count(zeros, wrong[i], &m.n));
    REFUSED(BUZZ_BAD_CAPTURE, buzz_capture_character(zeros, wrong[i], 0, &m.a));
    REFUSED(BUZZ_BAD_CAPTURE, buzz_capture_character(zeros, wrong[i], 99999, &m.a));
    REFUSED(BUZZ_BAD_CAPTURE, buzz_unpack(zeros, wrong[i], run, 0, &m.n));
    REFUSED(BUZZ_BAD_CAPTURE, buzz_unpack(zeros, wrong[i], run, 52440, &m.n));
    m.disparity = 0;
    REFUSED(BUZZ_BAD_CAPTURE, buzz_read_capture(zeros, wrong[i], &m.reader, &m.disparity, &m.a, 0, &m.n));
  }
  CHECK(buzz_capture_count(zeros, 65535, &m.n) == BUZZ_OK && m.n == 52428);
  CHECK(buzz_capture_character(zeros, 65535, 52427, &m.a) == BUZZ_OK && m.a == 0);
  REFUSED(BUZZ_OUT_OF_RANGE, buzz_capture_character(zeros, 65535, 52428, &m.a));
  CHECK(buzz_unpack(zeros, 65535, run, 52428, &m.n) == BUZZ_OK && m.n == 52428);
  begin();
  REFUSED(BUZZ_SHORT_OUTPUT, buzz_read_capture(zeros, 65535, &m.reader, &m.disparity, events, 52427, &m.n));
  CHECK(buzz_read_capture(zeros, 65535, &m.reader, &m.disparity, events, 52428, &m.n) == BUZZ_OK && m.n == 52428 && m.disparity == -1);
  CHECK(BUZZ_EVENT(events[0]) == BUZZ_VIOLATION && BUZZ_VALUE(events[0]) == 1 && events[1] == 0 && events[52427] == 0 && events[52428] == 7);
  run[0] = 1024;
  REFUSED(BUZZ_BAD_CAPTURE, buzz_pack(run, 52429, zeros, 0, &m.n));
  REFUSED(BUZZ_OUT_OF_RANGE, buzz_pack(run, 52428, zeros, 0, &m.n));
  /* every closing bit by itself: 6, 4, 2 and none after 2, 3, 4 and 5 bytes */
  for (size_t length = 2; length <= 5; length++)
    for (size_t bit = 0; bit < 8 * length % 10; bit++) {
      uint8_t capture[5] = {0};
      size_t n;
      capture[length - 1] = (uint8_t)(1 << bit);
      CHECK(buzz_capture_count(capture, length, &n) == BUZZ_BAD_CAPTURE);
    }
}

static void refused_ends(void) {
  static uint8_t output[8];
  begin();
  REFUSED(BUZZ_OUT_OF_RANGE, buzz_sender_offer(&m.sender, m.buffers, 65, 0, 0, m.bytes, 9, &m.a));
  REFUSED(BUZZ_OUT_OF_RANGE, buzz_sender_offer(&m.sender, m.buffers, 0, 0, 0, m.bytes, 0, &m.a));
  REFUSED(BUZZ_OUT_OF_RANGE, buzz_sender_offer(&m.sender, m.buffers, 64, 272, 0, m.bytes, 0, &m.a));
  REFUSED(BUZZ_OUT_OF_RANGE, buzz_sender_send(&m.sender, m.buffers, 63, output, 0, &m.a, &m.b, &m.c, &m.d, &m.e));
  REFUSED(BUZZ_OUT_OF_RANGE, buzz_sender_send(&m.sender, m.buffers, 65, output, 8, &m.a, &m.b, &m.c, &m.d, &m.e));
  REFUSED(BUZZ_OUT_OF_RANGE, buzz_sender_reply(&m.sender, 1, 272));
  REFUSED(BUZZ_OUT_OF_RANGE, buzz_sender_reset(&m.sender, 65536, 9));
  REFUSED(BUZZ_OUT_OF_RANGE, buzz_sender_reset(&m.sender, 65536 + 3, 8));
  REFUSED(BUZZ_SEGMENT_SIZE, buzz_sender_reset(&m.sender, 65535, 0));
  for (uint32_t size = 0; size < 2100; size++) {
    int allowed = size >= 8 && size <= 1024 && (size & (size - 1)) == 0;
    before = m;
    CHECK(buzz_sender_reset(&m.sender, 1, size) == (allowed ? BUZZ_OK : BUZZ_SEGMENT_SIZE));
    CHECK(buzz_reader_fresh(size, &m.reader) == (allowed ? BUZZ_OK : BUZZ_SEGMENT_SIZE));
    CHECK(buzz_receiver_fresh(size, &m.receiver) == (allowed ? BUZZ_OK : BUZZ_SEGMENT_SIZE));
    CHECK(buzz_sender_fresh(65535, size, &m.sender) == (allowed ? BUZZ_OK : BUZZ_SEGMENT_SIZE));
    CHECK(allowed || memcmp(&before, &m, sizeof m) == 0);
  }
  begin();
  CHECK(ARRIVE(0, 9, 6, 1, output, 6) == BUZZ_OK && m.a == 1 && m.b == 9 && m.c == 1 && m.d == 6 && m.e == 0 && m.f == 0);
  CHECK(ARRIVE(0, 9, 6, 1, output, 6) == BUZZ_OK && m.a == 0 && m.b == 0 && m.c == 0 && m.d == 0 && m.e == 0 && m.f == 0); /* repeated */
  CHECK(ARRIVE(5, 9, 6, 1, output, 6) == BUZZ_OK && m.a == 0 && m.b == 0 && m.c == 0 && m.d == 0 && m.e == 1 && m.f == 1); /* out of order */
  begin();
  REFUSED(BUZZ_OUT_OF_RANGE, ARRIVE(272, 0, 0, 1, output, 0));
  REFUSED(BUZZ_OUT_OF_RANGE, ARRIVE(0, 272, 9, 1, output, 0));
  /* with the number that is expected and with any other */
  for (uint32_t number = 0; number < 16; number++) {
    REFUSED(BUZZ_SEGMENT_SIZE, ARRIVE(number, 0, 9, 0, output, 0));
    REFUSED(BUZZ_NO_BYTES, ARRIVE(number, 0, 0, 0, output, 0));
  }
}

int main(void) {
  outputs();
  refused_lines();
  refused_captures();
  refused_ends();
  if (failures) { printf("edges.c: %d failed\n", failures); return 1; }
  printf("edges.c: ok\n");
  return 0;
}
