/* Every entry point and every refusal. All that a call is lent stands in one struct, which is compared whole, before and after. */
#include "lent.h"

/* What is lent. The bytes past what a call is given are part of it. */
static struct lent {
  LENT
  uint16_t characters[64];
  uint16_t results[64];
  uint8_t bytes[64];
  uint8_t buffers[64];
  uint8_t output[64];
} m, before;

static void begin(void) {
  memset(&m, 0xA5, sizeof m);
  m.disparity = -1;
}

static void characters(void) {
  begin();
  CHECK(buzz_write_character(0xBC, 1, &m.disparity, &m.a) == BUZZ_OK && m.a == 0xFA && m.disparity == 1);
  m.disparity = -1;
  CHECK(buzz_write_character(0xF1, 0, &m.disparity, &m.a) == BUZZ_OK && m.a == 0x237 && m.disparity == 1);
  CHECK(buzz_write_character(0xEB, 0, &m.disparity, &m.a) == BUZZ_OK && m.a == 0x348 && m.disparity == -1);
  CHECK(buzz_write_character(0x1C, 77, &m.disparity, &m.a) == BUZZ_OK && m.a == 0xF4);
  begin();
  REFUSED(BUZZ_OUT_OF_RANGE, buzz_write_character(256, 0, &m.disparity, &m.a));
  REFUSED(BUZZ_OUT_OF_RANGE, buzz_write_character(0x1BC, 1, &m.disparity, &m.a));
  REFUSED(BUZZ_NOT_WRITABLE, buzz_write_character(0xFC, 1, &m.disparity, &m.a));
  REFUSED(BUZZ_NOT_WRITABLE, buzz_write_character(0x00, 256, &m.disparity, &m.a));
  m.disparity = 0;
  REFUSED(BUZZ_OUT_OF_RANGE, buzz_write_character(0xFC, 1, &m.disparity, &m.a));
  REFUSED(BUZZ_OUT_OF_RANGE, buzz_read_character(0xFA, &m.disparity, &m.a, &m.b, &m.c));
  begin();
  REFUSED(BUZZ_OUT_OF_RANGE, buzz_read_character(1024, &m.disparity, &m.a, &m.b, &m.c));
  CHECK(buzz_read_character(0xFA, &m.disparity, &m.a, &m.b, &m.c) == BUZZ_OK);
  CHECK(m.disparity == 1 && m.a == BUZZ_CLEAN && m.b == 0xBC && m.c == 1);
  CHECK(buzz_read_character(0xFA, &m.disparity, &m.a, &m.b, &m.c) == BUZZ_OK);
  CHECK(m.disparity == 1 && m.a == BUZZ_WRONG_DISPARITY && m.b == 0xBC && m.c == 1);
  CHECK(buzz_read_character(0, &m.disparity, &m.a, &m.b, &m.c) == BUZZ_OK);
  CHECK(m.disparity == 1 && m.a == BUZZ_INVALID && m.b == 0 && m.c == 0);
  for (uint32_t control = 0; control < 2; control++)
    for (uint32_t byte = 0; byte < 256; byte++)
      for (int32_t d = -1; d <= 1; d += 2) {
        begin();
        m.disparity = d;
        if (buzz_write_character(byte, control, &m.disparity, &m.a) != BUZZ_OK) { CHECK(control); continue; }
        int32_t closing = m.disparity;
        m.disparity = d;
        CHECK(buzz_read_character(m.a, &m.disparity, &m.b, &m.c, &m.d) == BUZZ_OK);
        CHECK(m.b == BUZZ_CLEAN && m.c == byte && m.d == control && m.disparity == closing);
      }
  begin();
  m.characters[0] = 0xFA; m.characters[1] = 0; m.characters[2] = 0x305;
  CHECK(buzz_read_characters(m.characters, 3, &m.disparity, m.results, 3) == BUZZ_OK);
  CHECK(m.results[0] == (0xBC | 256 | 2048) && m.results[1] == (512 | 2048) && m.results[3] == 0xA5A5);
  begin();
  m.characters[0] = 0xFA; m.characters[1] = 1024;
  REFUSED(BUZZ_OUT_OF_RANGE, buzz_read_characters(m.characters, 2, &m.disparity, m.results, 1));
  m.characters[1] = 0;
  REFUSED(BUZZ_SHORT_OUTPUT, buzz_read_characters(m.characters, 2, &m.disparity, m.results, 1));
}

static void captures(void) {
  begin();
  m.characters[0] = 0xFA; m.characters[1] = 0x2AA;
  CHECK(buzz_pack(m.characters, 2, m.bytes, 3, &m.n) == BUZZ_OK && m.n == 3);
  CHECK(m.bytes[0] == 0x3E && m.bytes[1] == 0xAA && m.bytes[2] == 0xA0 && m.bytes[3] == 0xA5);
  CHECK(buzz_capture_count(m.bytes, 3, &m.n) == BUZZ_OK && m.n == 2);
  CHECK(buzz_capture_character(m.bytes, 3, 1, &m.a) == BUZZ_OK && m.a == 0x2AA);
  CHECK(buzz_unpack(m.bytes, 3, m.characters + 4, 2, &m.n) == BUZZ_OK && m.n == 2);
  CHECK(m.characters[4] == 0xFA && m.characters[5] == 0x2AA && m.characters[6] == 0xA5A5);
  REFUSED(BUZZ_OUT_OF_RANGE, buzz_capture_character(m.bytes, 3, 2, &m.a));
  REFUSED(BUZZ_OUT_OF_RANGE, buzz_capture_character(m.bytes, 3, (size_t)-1, &m.a));
  REFUSED(BUZZ_BAD_CAPTURE, buzz_capture_count(m.bytes, 1, &m.n));
  REFUSED(BUZZ_SHORT_OUTPUT, buzz_unpack(m.bytes, 3, m.characters, 1, &m.n));
  REFUSED(BUZZ_SHORT_OUTPUT, buzz_pack(m.characters, 2, m.bytes, 2, &m.n));
  m.bytes[2] = 0xA1;
  REFUSED(BUZZ_BAD_CAPTURE, buzz_capture_count(m.bytes, 3, &m.n));
  REFUSED(BUZZ_BAD_CAPTURE, buzz_capture_character(m.bytes, 3, 7, &m.a));
  REFUSED(BUZZ_BAD_CAPTURE, buzz_unpack(m.bytes, 3, m.characters, 0, &m.n));
  m.characters[1] = 1024;
  REFUSED(BUZZ_OUT_OF_RANGE, buzz_pack(m.characters, 2, m.bytes, 0, &m.n));
  CHECK(buzz_pack(m.characters, 0, m.bytes, 0, &m.n) == BUZZ_OK && m.n == 0);
  CHECK(buzz_capture_count(m.bytes, 0, &m.n) == BUZZ_OK && m.n == 0);
  static uint16_t many[52429];
  static uint8_t room[65540];
  REFUSED(BUZZ_BAD_CAPTURE, buzz_pack(many, 52429, room, sizeof room, &m.n));
  CHECK(buzz_pack(many, 52428, room, sizeof room, &m.n) == BUZZ_OK && m.n == 65535);
}

/* The characters of the run, read and stepped: the events other than nothing, five numbers each at most. */
static size_t read_all(const uint16_t *run, size_t count, int32_t d, uint32_t (*events)[3]) {
  size_t n = 0;
  for (size_t i = 0; i < count; i++) {
    uint32_t violation, byte, control, event, value, number;
    CHECK(buzz_read_character(run[i], &d, &violation, &byte, &control) == BUZZ_OK);
    CHECK(buzz_reader_step(&m.reader, violation, byte, control, &event, &value, &number) == BUZZ_OK);
    if (event != BUZZ_NOTHING) { events[n][0] = event; events[n][1] = value; events[n][2] = number; n++; }
  }
  return n;
}

#define EVENT(i, x, y, z) CHECK(events[i][0] == (x) && events[i][1] == (y) && events[i][2] == (z))

static void packets(void) {
  uint32_t events[64][3];
  static const uint8_t text[9] = {'1', '2', '3', '4', '5', '6', '7', '8', '9'};
  begin();
  REFUSED(BUZZ_SEGMENT_SIZE, buzz_reader_fresh(4, &m.reader));
  REFUSED(BUZZ_SEGMENT_SIZE, buzz_reader_fresh(65544, &m.reader));
  CHECK(buzz_reader_fresh(8, &m.reader) == BUZZ_OK);
  buzz_reader fresh = m.reader;
  int32_t d = m.disparity;
  CHECK(buzz_write_data(200, text, 9, 0, &m.disparity, m.characters, 15, &m.n) == BUZZ_OK && m.n == 15 && m.characters[15] == 0xA5A5);
  CHECK(read_all(m.characters, m.n, d, events) == 11);
  EVENT(0, BUZZ_START_DATA, 200, 0); EVENT(1, BUZZ_BYTE, '1', 0); EVENT(9, BUZZ_BYTE, '9', 0); EVENT(10, BUZZ_END, 0, 0);
  CHECK(memcmp(&m.reader, &fresh, sizeof fresh) == 0);
  d = m.disparity;
  CHECK(buzz_write_priority(8, 3, 12, text, 8, 5, &m.disparity, m.characters, 14, &m.n) == BUZZ_OK && m.n == 14);
  CHECK(read_all(m.characters, m.n, d, events) == 10);
  EVENT(0, BUZZ_START_PRIORITY, 3, 12); EVENT(9, BUZZ_END, 1, 0);
  d = m.disparity;
  CHECK(buzz_write_lmp(1, 9, &m.disparity, m.characters, 4, &m.n) == BUZZ_OK && m.n == 4);
  CHECK(read_all(m.characters, m.n, d, events) == 1);
  EVENT(0, BUZZ_LMP, 1, 9);
  CHECK(buzz_reader_step(&m.reader, BUZZ_INVALID, 999, 999, &m.a, &m.b, &m.c) == BUZZ_OK && m.a == BUZZ_VIOLATION && m.b == 1 && m.c == 0);

  begin();
  REFUSED(BUZZ_OUT_OF_RANGE, buzz_write_data(256, text, 0, 0, &m.disparity, m.characters, 0, &m.n));
  REFUSED(BUZZ_NO_BYTES, buzz_write_data(255, text, 0, 0, &m.disparity, m.characters, 0, &m.n));
  REFUSED(BUZZ_SHORT_OUTPUT, buzz_write_data(255, text, 9, 0, &m.disparity, m.characters, 14, &m.n));
  REFUSED(BUZZ_OUT_OF_RANGE, buzz_write_priority(4, 16, 0, text, 9, 0, &m.disparity, m.characters, 0, &m.n));
  REFUSED(BUZZ_OUT_OF_RANGE, buzz_write_priority(4, 0, 16, text, 9, 0, &m.disparity, m.characters, 0, &m.n));
  REFUSED(BUZZ_SEGMENT_SIZE, buzz_write_priority(4, 0, 0, text, 0, 0, &m.disparity, m.characters, 0, &m.n));
  REFUSED(BUZZ_SEGMENT_SIZE, buzz_write_priority(8, 0, 0, text, 9, 0, &m.disparity, m.characters, 0, &m.n));
  REFUSED(BUZZ_NO_BYTES, buzz_write_priority(8, 0, 0, text, 0, 0, &m.disparity, m.characters, 0, &m.n));
  REFUSED(BUZZ_SHORT_OUTPUT, buzz_write_priority(8, 0, 0, text, 8, 0, &m.disparity, m.characters, 13, &m.n));
  REFUSED(BUZZ_OUT_OF_RANGE, buzz_write_lmp(0, 16, &m.disparity, m.characters, 4, &m.n));
  REFUSED(BUZZ_SHORT_OUTPUT, buzz_write_lmp(0, 15, &m.disparity, m.characters, 3, &m.n));
  m.disparity = 3;
  REFUSED(BUZZ_OUT_OF_RANGE, buzz_write_data(255, text, 9, 0, &m.disparity, m.characters, 15, &m.n));
  REFUSED(BUZZ_OUT_OF_RANGE, buzz_write_lmp(0, 15, &m.disparity, m.characters, 4, &m.n));

  REFUSED(BUZZ_OUT_OF_RANGE, buzz_reader_step(&m.reader, 0, 0, 0, &m.a, &m.b, &m.c));
  memset(&m.reader, 0, sizeof m.reader);
  REFUSED(BUZZ_OUT_OF_RANGE, buzz_reader_step(&m.reader, 0, 0, 0, &m.a, &m.b, &m.c));
  m.reader = fresh;
  REFUSED(BUZZ_OUT_OF_RANGE, buzz_reader_step(&m.reader, 3, 0, 0, &m.a, &m.b, &m.c));
  REFUSED(BUZZ_OUT_OF_RANGE, buzz_reader_step(&m.reader, 0, 256, 0, &m.a, &m.b, &m.c));
  REFUSED(BUZZ_OUT_OF_RANGE, buzz_reader_step(&m.reader, 0, 1, 1, &m.a, &m.b, &m.c));
  /* in a fresh state every byte but those of S has one value: any other encodes nothing */
  for (size_t i = 2; i < BUZZ_READER_BYTES; i++) {
    m.reader = fresh;
    m.reader.bytes[i] = 255;
    REFUSED(BUZZ_OUT_OF_RANGE, buzz_reader_step(&m.reader, 0, 0, 0, &m.a, &m.b, &m.c));
  }
}

#define OFFER(channel, length) buzz_sender_offer(&m.sender, m.buffers, 64, channel, 0, m.bytes, length, &m.a)
#define SEND(room) buzz_sender_send(&m.sender, m.buffers, 64, m.output, room, &m.a, &m.b, &m.c, &m.d, &m.e)

/* Every call of a sender that holds a state is refused with the number. */
static void all_refused(uint32_t number, uint32_t channel, size_t length, size_t room, uint32_t reply) {
  REFUSED(number, OFFER(channel, length));
  REFUSED(number, SEND(room));
  REFUSED(number, buzz_sender_reply(&m.sender, 0, reply));
  REFUSED(number, buzz_sender_damaged_reply(&m.sender));
  REFUSED(number, buzz_sender_tick(&m.sender, &m.a));
}

static void sender(void) {
  begin();
  REFUSED(BUZZ_OUT_OF_RANGE, buzz_sender_fresh(0, 8, &m.sender));
  REFUSED(BUZZ_OUT_OF_RANGE, buzz_sender_fresh(65536, 12, &m.sender));
  REFUSED(BUZZ_SEGMENT_SIZE, buzz_sender_fresh(3, 12, &m.sender));
  memset(&m.sender, 0, sizeof m.sender);
  all_refused(BUZZ_OUT_OF_RANGE, 0, 1, 64, 0);
  REFUSED(BUZZ_OUT_OF_RANGE, buzz_sender_reset(&m.sender, 3, 8));
  CHECK(buzz_sender_fresh(3, 8, &m.sender) == BUZZ_OK);
  REFUSED(BUZZ_OUT_OF_RANGE, OFFER(16, 9));
  REFUSED(BUZZ_SEGMENT_SIZE, OFFER(15, 9));
  REFUSED(BUZZ_NO_BYTES, OFFER(15, 0));
  REFUSED(BUZZ_OUT_OF_RANGE, buzz_sender_offer(&m.sender, m.buffers, 63, 0, 0, m.bytes, 1, &m.a));
  CHECK(SEND(0) == BUZZ_OK && m.a == 0 && m.b == 0);
  for (uint32_t i = 0; i < 8; i++) {
    memset(m.bytes, (int)('a' + i), 8);
    CHECK(OFFER(i, i + 1) == BUZZ_OK && m.a == i);
  }
  REFUSED(BUZZ_FULL, OFFER(0, 1));
  CHECK(SEND(1) == BUZZ_OK && m.a == 1 && m.b == 0 && m.c == 0 && m.d == 0 && m.e == 1 && m.output[0] == 'a' && m.output[1] == 0xA5);
  REFUSED(BUZZ_SHORT_OUTPUT, SEND(1));
  CHECK(SEND(2) == BUZZ_OK && m.b == 1 && m.e == 2 && m.output[1] == 'b' && m.output[2] == 0xA5);
  REFUSED(BUZZ_OUT_OF_RANGE, buzz_sender_reply(&m.sender, 0, 16));
  CHECK(buzz_sender_reply(&m.sender, 0, 0) == BUZZ_OK);
  CHECK(buzz_sender_damaged_reply(&m.sender) == BUZZ_OK);
  m.bytes[0] = 'z';
  CHECK(buzz_sender_offer(&m.sender, m.buffers, 64, 2, 9, m.bytes, 1, &m.a) == BUZZ_OK && m.a == 8 && m.buffers[0] == 'z');
  CHECK(buzz_sender_reply(&m.sender, 7, 1) == BUZZ_OK);
  CHECK(SEND(64) == BUZZ_OK && m.a == 1 && m.b == 1 && m.c == 1 && m.e == 2);
  for (int i = 0; i < 8; i++) CHECK(buzz_sender_tick(&m.sender, &m.a) == BUZZ_OK && m.a == 0);
  CHECK(buzz_sender_tick(&m.sender, &m.a) == BUZZ_OK && m.a == 1);
  all_refused(BUZZ_LINK_DOWN, 16, 9, 0, 16);
  REFUSED(BUZZ_OUT_OF_RANGE, buzz_sender_reset(&m.sender, 0, 8));
  REFUSED(BUZZ_SEGMENT_SIZE, buzz_sender_reset(&m.sender, 3, 9));
  CHECK(buzz_sender_reset(&m.sender, 3, 8) == BUZZ_OK);
  CHECK(OFFER(0, 1) == BUZZ_OK && m.a == 0);
}

#define ARRIVE(number, channel, length, room, output_length) \
  buzz_receiver_arrival(&m.receiver, number, channel, 0, m.bytes, length, room, m.output, output_length, &m.a, &m.d, &m.e, &m.f, &m.b, &m.c)

static void receiver(void) {
  begin();
  REFUSED(BUZZ_SEGMENT_SIZE, buzz_receiver_fresh(12, &m.receiver));
  REFUSED(BUZZ_OUT_OF_RANGE, ARRIVE(0, 0, 1, 1, 8));
  memset(&m.receiver, 0, sizeof m.receiver);
  REFUSED(BUZZ_OUT_OF_RANGE, ARRIVE(0, 0, 1, 1, 8));
  REFUSED(BUZZ_OUT_OF_RANGE, buzz_receiver_damaged_arrival(&m.receiver, &m.a, &m.b));
  CHECK(buzz_receiver_fresh(8, &m.receiver) == BUZZ_OK);
  CHECK(ARRIVE(12, 0, 1, 1, 8) == BUZZ_OK && m.a == 0 && m.b == 1 && m.c == 0);
  REFUSED(BUZZ_OUT_OF_RANGE, ARRIVE(16, 0, 1, 1, 8));
  REFUSED(BUZZ_OUT_OF_RANGE, ARRIVE(0, 16, 9, 1, 8));
  REFUSED(BUZZ_SEGMENT_SIZE, ARRIVE(0, 0, 9, 1, 8));
  REFUSED(BUZZ_NO_BYTES, ARRIVE(0, 0, 0, 1, 8));
  REFUSED(BUZZ_SHORT_OUTPUT, ARRIVE(0, 0, 8, 1, 7));
  CHECK(ARRIVE(0, 0, 8, 0, 0) == BUZZ_OK && m.a == 0 && m.b == 1 && m.c == 0);
  CHECK(buzz_receiver_damaged_arrival(&m.receiver, &m.a, &m.b) == BUZZ_OK && m.a == 1 && m.b == 0);
  for (uint32_t i = 0; i < 10; i++) {
    memset(m.bytes, (int)('a' + i), 8);
    memset(m.output, 0xA5, sizeof m.output);
    CHECK(ARRIVE(i, 0, 8, 2, 8) == BUZZ_OK && m.a == 1 && m.b == 0 && m.c == i && m.d == 0 && m.e == 0 && m.f == 8);
    CHECK(m.output[0] == 'a' + i && m.output[7] == 'a' + i && m.output[8] == 0xA5);
  }
  CHECK(ARRIVE(2, 0, 8, 0, 0) == BUZZ_OK && m.a == 0 && m.b == 0 && m.c == 2);
  CHECK(ARRIVE(1, 0, 8, 0, 0) == BUZZ_OK && m.a == 0 && m.b == 1 && m.c == 10);
}

int main(void) {
  characters();
  captures();
  packets();
  sender();
  receiver();
  if (failures) { printf("entries.c: %d failed\n", failures); return 1; }
  printf("entries.c: ok\n");
  return 0;
}
