/* Both ends of the retry: counters in a struct, a ring of eight buffers. */
#include "plain.h"
#include <string.h>

enum { UP = 1, DOWN = 2 };

static inline int count_is_ruled(unsigned n, unsigned count) { return count < 8 ? n == count : count == 8 && n < 16; }

/* k is one of the last `count` numbers before n. */
static inline int among_last(unsigned count, unsigned n, unsigned k) { return ((n - 1 - k) & 15) < count; }

static inline int sender_is_ruled(const plain_sender *s) {
  if (!is_size(s->size) || !count_is_ruled(s->oldest, s->released)) return 0;
  if (s->stored > 8 || s->outstanding > s->stored || s->point > s->outstanding) return 0;
  if (s->columns == 0 || s->timer == 0 || s->timer > s->columns || s->link != UP || s->expiries > 2) return 0;
  if (s->outstanding == 0 && (s->timer != s->columns || s->expiries)) return 0;
  for (unsigned i = 0; i < s->stored; i++) {
    unsigned k = (s->oldest + i) & 7;
    if (s->slots[k].length == 0 || s->slots[k].length > s->size || s->slots[k].channel > 15) return 0;
  }
  return 1;
}

CALL uint32_t plain_sender_fresh(uint32_t columns, uint32_t size, plain_sender *sender) {
  if (columns == 0 || columns > 65535) return BUZZ_OUT_OF_RANGE;
  if (!is_size(size)) return BUZZ_SEGMENT_SIZE;
  *sender = (plain_sender){.timer = (uint16_t)columns, .columns = (uint16_t)columns, .size = (uint16_t)size, .link = UP};
  return BUZZ_OK;
}

static inline void store(plain_sender *s, uint8_t *buffers, uint32_t channel, uint32_t bad, const uint8_t *bytes, size_t length, uint32_t *number) {
  unsigned k = s->oldest + s->stored;
  memcpy(buffers + (k & 7) * s->size, bytes, length);
  s->slots[k & 7].length = (uint16_t)length;
  s->slots[k & 7].channel = (uint8_t)channel;
  s->slots[k & 7].bad = bad != 0;
  s->stored++;
  *number = k & 15;
}

CALL void plain_sender_offer_trusting(plain_sender *sender, uint8_t *buffers, uint32_t channel, uint32_t bad, const uint8_t *bytes, size_t length,
                                      uint32_t *number) {
  store(sender, buffers, channel, bad, bytes, length, number);
}

CALL uint32_t plain_sender_offer(plain_sender *sender, uint8_t *buffers, size_t buffers_length, uint32_t channel, uint32_t bad, const uint8_t *bytes,
                                 size_t length, uint32_t *number) {
  if (sender->link == DOWN) return BUZZ_LINK_DOWN;
  if (!sender_is_ruled(sender) || buffers_length != 8u * sender->size || channel > 15) return BUZZ_OUT_OF_RANGE;
  if (length > sender->size) return BUZZ_SEGMENT_SIZE;
  if (length == 0) return BUZZ_NO_BYTES;
  if (sender->stored == 8) return BUZZ_FULL;
  store(sender, buffers, channel, bad, bytes, length, number);
  return BUZZ_OK;
}

static inline void take(plain_sender *s, const uint8_t *buffers, uint8_t *output, uint32_t *sent, uint32_t *number, uint32_t *channel, uint32_t *bad,
                        uint32_t *length) {
  if (s->point == s->stored) {
    *sent = *number = *channel = *bad = *length = 0;
    return;
  }
  unsigned k = s->oldest + s->point;
  memcpy(output, buffers + (k & 7) * s->size, s->slots[k & 7].length);
  if (++s->point > s->outstanding) s->outstanding = s->point;
  *sent = 1;
  *number = k & 15;
  *channel = s->slots[k & 7].channel;
  *bad = s->slots[k & 7].bad;
  *length = s->slots[k & 7].length;
}

CALL void plain_sender_send_trusting(plain_sender *sender, const uint8_t *buffers, uint8_t *output, uint32_t *sent, uint32_t *number,
                                     uint32_t *channel, uint32_t *bad, uint32_t *length) {
  take(sender, buffers, output, sent, number, channel, bad, length);
}

CALL uint32_t plain_sender_send(plain_sender *sender, const uint8_t *buffers, size_t buffers_length, uint8_t *output, size_t output_length,
                                uint32_t *sent, uint32_t *number, uint32_t *channel, uint32_t *bad, uint32_t *length) {
  if (sender->link == DOWN) return BUZZ_LINK_DOWN;
  if (!sender_is_ruled(sender) || buffers_length != 8u * sender->size) return BUZZ_OUT_OF_RANGE;
  if (sender->point < sender->stored && output_length < sender->slots[(sender->oldest + sender->point) & 7].length) return BUZZ_SHORT_OUTPUT;
  take(sender, buffers, output, sent, number, channel, bad, length);
  return BUZZ_OK;
}

static inline void hear(plain_sender *s, uint32_t nack, uint32_t number) {
  if (s->outstanding == 0) return;
  if (nack || (number != s->oldest && !among_last(s->released, s->oldest, number))) s->point = 0;
  if (number != s->oldest) return;
  s->timer = s->columns;
  s->expiries = 0;
  if (nack) return;
  s->oldest = (s->oldest + 1) & 15;
  s->stored--;
  s->outstanding--;
  if (s->point) s->point--;
  if (s->released < 8) s->released++;
}

CALL void plain_sender_reply_trusting(plain_sender *sender, uint32_t nack, uint32_t number) { hear(sender, nack, number); }

CALL uint32_t plain_sender_reply(plain_sender *sender, uint32_t nack, uint32_t number) {
  if (sender->link == DOWN) return BUZZ_LINK_DOWN;
  if (!sender_is_ruled(sender) || number > 15) return BUZZ_OUT_OF_RANGE;
  hear(sender, nack, number);
  return BUZZ_OK;
}

CALL uint32_t plain_receiver_fresh(uint32_t size, plain_receiver *receiver) {
  if (!is_size(size)) return BUZZ_SEGMENT_SIZE;
  *receiver = (plain_receiver){.size = (uint16_t)size};
  return BUZZ_OK;
}

static inline void receive(plain_receiver *r, uint32_t number, uint32_t channel, uint32_t bad, const uint8_t *bytes, size_t length, uint32_t room,
                           uint8_t *output, uint32_t *delivered, uint32_t *delivered_channel, uint32_t *delivered_bad, uint32_t *delivered_length,
                           uint32_t *nack, uint32_t *reply) {
  *delivered = *delivered_channel = *delivered_bad = *delivered_length = *nack = 0;
  *reply = number;
  if (number == r->expected && room) {
    memcpy(output, bytes, length);
    r->expected = (r->expected + 1) & 15;
    if (r->received < 8) r->received++;
    *delivered = 1;
    *delivered_channel = channel;
    *delivered_bad = bad != 0;
    *delivered_length = (uint32_t)length;
  } else if (number == r->expected || !among_last(r->received, r->expected, number)) {
    *nack = 1;
    *reply = r->expected;
  }
}

CALL void plain_receiver_arrival_trusting(plain_receiver *receiver, uint32_t number, uint32_t channel, uint32_t bad, const uint8_t *bytes,
                                          size_t length, uint32_t room, uint8_t *output, uint32_t *delivered, uint32_t *delivered_channel,
                                          uint32_t *delivered_bad, uint32_t *delivered_length, uint32_t *nack, uint32_t *reply) {
  receive(receiver, number, channel, bad, bytes, length, room, output, delivered, delivered_channel, delivered_bad, delivered_length, nack, reply);
}

CALL uint32_t plain_receiver_arrival(plain_receiver *receiver, uint32_t number, uint32_t channel, uint32_t bad, const uint8_t *bytes, size_t length,
                                     uint32_t room, uint8_t *output, size_t output_length, uint32_t *delivered, uint32_t *delivered_channel,
                                     uint32_t *delivered_bad, uint32_t *delivered_length, uint32_t *nack, uint32_t *reply) {
  if (!is_size(receiver->size) || !count_is_ruled(receiver->expected, receiver->received) || number > 15 || channel > 15) return BUZZ_OUT_OF_RANGE;
  if (length > receiver->size) return BUZZ_SEGMENT_SIZE;
  if (length == 0) return BUZZ_NO_BYTES;
  if (number == receiver->expected && room && output_length < length) return BUZZ_SHORT_OUTPUT;
  receive(receiver, number, channel, bad, bytes, length, room, output, delivered, delivered_channel, delivered_bad, delivered_length, nack, reply);
  return BUZZ_OK;
}
