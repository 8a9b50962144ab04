/* Two ends of a link in one process, over a line that loses and damages. The near end sends the words it is given (or some of its
 * own) as segments, the far end delivers them in order, and what is delivered is printed, a line each.
 *
 *   cc -I include examples/two_ends.c libhost.a && ./a.out one two three
 */
#include "buzzgarland.h"
#include <stdio.h>
#include <stdlib.h>
#include <string.h>

enum { S = 16, T = 12, MOST = S + 6 };

/* One direction of the line: the writer's disparity at its start, and the reader at its end with its own. */
struct line {
  int32_t writing, reading;
  buzz_reader reader;
};

static struct line forth, back;
static buzz_sender sender;
static buzz_receiver receiver;
static uint8_t buffers[8 * S];

static void must(uint32_t refusal, const char *call) {
  if (refusal != BUZZ_OK) {
    fprintf(stderr, "%s: refused %u\n", call, (unsigned)refusal);
    exit(1);
  }
}

/* A small generator, so that every run is the same. */
static uint32_t chance(uint32_t n) {
  static uint32_t x = 2463534242u;
  x ^= x << 13;
  x ^= x >> 17;
  x ^= x << 5;
  return x % n;
}

/* The line: now and then all of a packet is lost, now and then one bit of it is turned. */
static size_t carry(uint16_t *run, size_t count) {
  if (chance(6) == 0) return 0;
  if (chance(6) == 0) run[chance((uint32_t)count)] ^= (uint16_t)(1u << chance(10));
  return count;
}

/* One character at the end of a line: an event. */
static uint32_t hear(struct line *l, uint16_t character, uint32_t *value, uint32_t *number) {
  uint32_t violation, byte, control, event;
  must(buzz_read_character(character, &l->reading, &violation, &byte, &control), "read");
  must(buzz_reader_step(&l->reader, violation, byte, control, &event, value, number), "step");
  return event;
}

/* The near end hears the far end's reply. */
static void hear_reply(uint16_t *run, size_t count) {
  uint32_t value, number;
  for (size_t i = 0; i < count; i++) {
    uint32_t event = hear(&back, run[i], &value, &number);
    if (event == BUZZ_LMP) must(buzz_sender_reply(&sender, value, number), "reply");
    if (event == BUZZ_VIOLATION) must(buzz_sender_damaged_reply(&sender), "damaged reply");
  }
}

static void answer(uint32_t nack, uint32_t number) {
  uint16_t run[4];
  size_t count;
  must(buzz_write_lmp(nack, number, &back.writing, run, 4, &count), "write LMP");
  hear_reply(run, carry(run, count));
}

/* The far end hears a packet; returns how many segments it delivered. */
static int hear_packet(const uint16_t *run, size_t count) {
  uint32_t value, number, channel = 0, segment = 0, delivered, its_channel, its_mark, its_length, nack, reply;
  uint8_t bytes[S], output[S];
  size_t length = 0;
  int n = 0;
  for (size_t i = 0; i < count; i++) {
    switch (hear(&forth, run[i], &value, &number)) {
    case BUZZ_START_PRIORITY:
      channel = value, segment = number, length = 0;
      break;
    case BUZZ_BYTE:
      if (length < S) bytes[length++] = (uint8_t)value;
      break;
    case BUZZ_END:
      must(buzz_receiver_arrival(&receiver, segment, channel, value, bytes, length, 1, output, S, &delivered, &its_channel, &its_mark, &its_length,
                                 &nack, &reply), "arrival");
      if (delivered) printf("%.*s\n", (int)its_length, (const char *)output), n++;
      answer(nack, reply);
      break;
    case BUZZ_VIOLATION:
      must(buzz_receiver_damaged_arrival(&receiver, &nack, &reply), "damaged arrival");
      answer(nack, reply);
      break;
    }
  }
  return n;
}

static void send_one(int *delivered) {
  uint32_t sent, number, channel, bad, length;
  uint8_t segment[S];
  uint16_t run[MOST];
  size_t count;
  must(buzz_sender_send(&sender, buffers, sizeof buffers, segment, S, &sent, &number, &channel, &bad, &length), "send");
  if (!sent) return;
  must(buzz_write_priority(S, channel, number, segment, length, bad, &forth.writing, run, MOST, &count), "write packet");
  *delivered += hear_packet(run, carry(run, count));
}

static int offer(const char *word) {
  uint32_t number;
  size_t length = strlen(word);
  uint32_t refusal = buzz_sender_offer(&sender, buffers, sizeof buffers, 0, 0, (const uint8_t *)word, length, &number);
  if (refusal == BUZZ_FULL) return 0;
  must(refusal, "offer");
  return 1;
}

int main(int argc, char **argv) {
  static char *own[] = {"", "the", "proved", "core", "of", "a", "converter", "on", "a", "link", "that", "loses", "and", "damages"};
  if (argc < 2) argc = (int)(sizeof own / sizeof own[0]), argv = own;
  forth.writing = forth.reading = back.writing = back.reading = -1;
  must(buzz_reader_fresh(S, &forth.reader), "reader");
  must(buzz_reader_fresh(S, &back.reader), "reader");
  must(buzz_sender_fresh(T, S, &sender), "sender");
  must(buzz_receiver_fresh(S, &receiver), "receiver");
  int next = 1, delivered = 0;
  while (delivered < argc - 1) {
    uint32_t fell;
    while (next < argc && offer(argv[next])) next++;
    send_one(&delivered);
    must(buzz_sender_tick(&sender, &fell), "tick");
    if (fell) {
      fprintf(stderr, "the link is down\n");
      return 1;
    }
  }
  return 0;
}
