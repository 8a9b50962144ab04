/* The jobs of the archive in plain C, as one would write them by hand. Each call has two forms: the one with the name of ours gives the same promise (the
 * same refusals in the same order, and nothing written on a refusal); the one that ends in _trusting checks nothing. plain_tables() must be called first. */
#ifndef PLAIN_H
#define PLAIN_H

#include "buzzgarland.h"

/* Both sides of the bench are calls: nothing is taken into the loop that measures it. */
#if defined __clang__
#define CALL __attribute__((noinline))
#else
#define CALL __attribute__((noipa))
#endif

void plain_tables(void);

/* characters */
uint32_t plain_read_character(uint32_t character, int32_t *disparity, uint32_t *violation, uint32_t *byte, uint32_t *control);
void plain_read_character_trusting(uint32_t character, int32_t *disparity, uint32_t *violation, uint32_t *byte, uint32_t *control);
uint32_t plain_read_characters(const uint16_t *characters, size_t count, int32_t *disparity, uint16_t *results, size_t results_count);
void plain_read_characters_trusting(const uint16_t *characters, size_t count, int32_t *disparity, uint16_t *results);
uint32_t plain_write_character(uint32_t byte, uint32_t control, int32_t *disparity, uint32_t *character);
void plain_write_character_trusting(uint32_t byte, uint32_t control, int32_t *disparity, uint32_t *character);

/* captures */
uint32_t plain_pack(const uint16_t *characters, size_t count, uint8_t *capture, size_t room, size_t *bytes);
size_t plain_pack_trusting(const uint16_t *characters, size_t count, uint8_t *capture);
uint32_t plain_unpack(const uint8_t *capture, size_t length, uint16_t *characters, size_t room, size_t *count);
size_t plain_unpack_trusting(const uint8_t *capture, size_t length, uint16_t *characters);

/* CRC-16 and the packet writer */
void plain_crc16(const uint8_t *bytes, size_t length, uint8_t check[2]);
uint32_t plain_write_data(uint32_t channel, const uint8_t *bytes, size_t length, uint32_t bad, int32_t *disparity, uint16_t *characters, size_t room,
                          size_t *count);
size_t plain_write_data_trusting(uint32_t channel, const uint8_t *bytes, size_t length, uint32_t bad, int32_t *disparity, uint16_t *characters);

/* the packet reader */
typedef struct plain_reader {
  uint16_t size, register_of_data, register_of_priority, count; /* count: bytes of the priority packet so far */
  uint8_t data, channel;                                        /* data: 0 none, 1 open, 2 open and a byte came */
  uint8_t priority, opening;
  uint8_t phase, first, second; /* what is due, and what a begun sequence carries */
} plain_reader;

uint32_t plain_reader_fresh(uint32_t size, plain_reader *reader);
uint32_t plain_reader_step(plain_reader *reader, uint32_t violation, uint32_t byte, uint32_t control, uint32_t *event, uint32_t *value,
                           uint32_t *number);
void plain_reader_step_trusting(plain_reader *reader, uint32_t violation, uint32_t byte, uint32_t control, uint32_t *event, uint32_t *value,
                                uint32_t *number);
/* A whole capture: an event for each character, 65,536 times the event, 256 times the number, and the value. 8; 1: the state, no disparity; 6. */
uint32_t plain_read_capture(const uint8_t *capture, size_t length, plain_reader *reader, int32_t *disparity, uint32_t *events, size_t room,
                            size_t *count);
size_t plain_read_capture_trusting(const uint8_t *capture, size_t length, plain_reader *reader, int32_t *disparity, uint32_t *events);

/* both ends of the retry */
typedef struct plain_sender {
  uint8_t oldest, stored, outstanding, point, released, expiries, link;
  uint16_t timer, columns, size;
  struct {
    uint16_t length;
    uint8_t channel, bad;
  } slots[8];
} plain_sender;

typedef struct plain_receiver {
  uint8_t expected, received;
  uint16_t size;
} plain_receiver;

uint32_t plain_sender_fresh(uint32_t columns, uint32_t size, plain_sender *sender);
uint32_t plain_sender_offer(plain_sender *sender, uint8_t *buffers, size_t buffers_length, uint32_t channel, uint32_t bad, const uint8_t *bytes,
                            size_t length, uint32_t *number);
void plain_sender_offer_trusting(plain_sender *sender, uint8_t *buffers, uint32_t channel, uint32_t bad, const uint8_t *bytes, size_t length,
                                 uint32_t *number);
uint32_t plain_sender_send(plain_sender *sender, const uint8_t *buffers, size_t buffers_length, uint8_t *output, size_t output_length, uint32_t *sent,
                           uint32_t *number, uint32_t *channel, uint32_t *bad, uint32_t *length);
void plain_sender_send_trusting(plain_sender *sender, const uint8_t *buffers, uint8_t *output, uint32_t *sent, uint32_t *number, uint32_t *channel,
                                uint32_t *bad, uint32_t *length);
uint32_t plain_sender_reply(plain_sender *sender, uint32_t nack, uint32_t number);
void plain_sender_reply_trusting(plain_sender *sender, uint32_t nack, uint32_t number);
uint32_t plain_receiver_fresh(uint32_t size, plain_receiver *receiver);
uint32_t plain_receiver_arrival(plain_receiver *receiver, uint32_t number, uint32_t channel, uint32_t bad, const uint8_t *bytes, size_t length,
                                uint32_t room, uint8_t *output, size_t output_length, uint32_t *delivered, uint32_t *delivered_channel,
                                uint32_t *delivered_bad, uint32_t *delivered_length, uint32_t *nack, uint32_t *reply);
void plain_receiver_arrival_trusting(plain_receiver *receiver, uint32_t number, uint32_t channel, uint32_t bad, const uint8_t *bytes, size_t length,
                                     uint32_t room, uint8_t *output, uint32_t *delivered, uint32_t *delivered_channel, uint32_t *delivered_bad,
                                     uint32_t *delivered_length, uint32_t *nack, uint32_t *reply);

#endif
