/* Buzzgarland: the proved core of a converter on a SerialLite II link, for a host in C99 or C++.
 *
 * Every function returns 0, or the number of the refusal that is the first to apply (BUZZ_..., below).
 * Results go through pointers. On a refusal nothing that a pointer reaches is written: all stands as it stood.
 * Of an output, the bytes past the result are never written.
 *
 * Pointers: each must be valid for its length, and what is written must overlap nothing else that the call is given.
 * No pointer may be null. For a run of length 0 any valid pointer will do: nothing is read or written through it.
 * Nothing is kept between calls but what the host keeps: states are its own bytes, and may be
 * copied, stored and moved. A state belongs to one thread at a time.
 *
 * Numbers are wide, so that what is out of range can be seen and is refused with 1. A mark (bad, nack, control, room)
 * is 0 for good, ACK, data, none, and anything else for bad, NACK, control, room; marks that are handed out are 0 or 1.
 * A disparity is -1 or +1; both ends of a line begin at -1. Characters are ten bits, 0 to 1023, bit a the highest.
 */
#ifndef BUZZGARLAND_H
#define BUZZGARLAND_H

#include <stddef.h>
#include <stdint.h>

#ifdef __cplusplus
extern "C" {
#endif

/* The refusals. Where several apply: 7 first, then 8, then 1 to 6. */
#define BUZZ_OK 0u
#define BUZZ_OUT_OF_RANGE 1u /* a number is out of range, or bytes that encode no well-formed state */
#define BUZZ_SEGMENT_SIZE 2u /* S is not 8, 16, 32 up to 1024, or a segment is over S bytes */
#define BUZZ_NOT_WRITABLE 3u /* control asked for a byte that is not writable */
#define BUZZ_NO_BYTES 4u     /* a packet or segment of no bytes */
#define BUZZ_FULL 5u         /* eight segments are stored */
#define BUZZ_SHORT_OUTPUT 6u /* the output is shorter than the result */
#define BUZZ_LINK_DOWN 7u    /* the sender's link is down; only a reset is taken */
#define BUZZ_BAD_CAPTURE 8u  /* a capture with a wrong length or closing bit, or over 65535 bytes, read or to be written */

/* The states, as bytes. Zero bytes are no state and are refused with 1: make one with a .._fresh function. */
#define BUZZ_READER_BYTES 15
#define BUZZ_SENDER_BYTES 38
#define BUZZ_RECEIVER_BYTES 4
typedef struct buzz_reader { uint8_t bytes[BUZZ_READER_BYTES]; } buzz_reader;
typedef struct buzz_sender { uint8_t bytes[BUZZ_SENDER_BYTES]; } buzz_sender;
typedef struct buzz_receiver { uint8_t bytes[BUZZ_RECEIVER_BYTES]; } buzz_receiver;

/* ---- characters ---- */

/* The violation of reading a character. */
#define BUZZ_CLEAN 0u
#define BUZZ_INVALID 1u
#define BUZZ_WRONG_DISPARITY 2u

/* Writes a symbol (byte 0 to 255, control mark) as a character at *disparity, which becomes the closing one.
 * 1: byte over 255, no disparity; 3: a control byte that is not writable. */
uint32_t buzz_write_character(uint32_t byte, uint32_t control, int32_t *disparity, uint32_t *character);

/* Reads a character at *disparity, which becomes the new one. *violation is one of the three above; an invalid
 * character has no symbol, and *byte and *control become 0. 1: character over 1023, no disparity. */
uint32_t buzz_read_character(uint32_t character, int32_t *disparity, uint32_t *violation, uint32_t *byte, uint32_t *control);

/* Reads a run of characters into results, one for each: the byte in bits 0 to 7, the control mark in bit 8, the violation
 * in bits 9 and 10, a new disparity of +1 in bit 11. 1: a character over 1023, no disparity; 6: results shorter than the run. */
uint32_t buzz_read_characters(const uint16_t *characters, size_t count, int32_t *disparity, uint16_t *results, size_t results_count);

/* ---- captures: ten-bit characters packed into bytes, most significant bit first ---- */

/* How many characters a capture holds. 8: it is not legal. */
uint32_t buzz_capture_count(const uint8_t *capture, size_t length, size_t *count);

/* The character at a place from 0 on. 8: the capture is not legal; 1: no character stands there. */
uint32_t buzz_capture_character(const uint8_t *capture, size_t length, size_t place, uint32_t *character);

/* Packs characters into the front of capture; *bytes becomes their number. 8: over 52428 characters; 1: one over 1023; 6. */
uint32_t buzz_pack(const uint16_t *characters, size_t count, uint8_t *capture, size_t room, size_t *bytes);

/* A capture's characters in the front of characters; *count becomes their number. 8; 6. */
uint32_t buzz_unpack(const uint8_t *capture, size_t length, uint16_t *characters, size_t room, size_t *count);

/* ---- the packet reader ---- */

#define BUZZ_NOTHING 0u
#define BUZZ_VIOLATION 1u      /* value: its number, 1 to 10 */
#define BUZZ_START_DATA 2u     /* value: the channel */
#define BUZZ_START_PRIORITY 3u /* value: the channel; number: the segment number */
#define BUZZ_BYTE 4u           /* value: the byte */
#define BUZZ_END 5u            /* value: the bad mark */
#define BUZZ_LMP 6u            /* value: the NACK mark; number: the segment number */

/* A reader before any character, for segments of size bytes. 2: size not allowed. */
uint32_t buzz_reader_fresh(uint32_t size, buzz_reader *reader);

/* One character result in (as buzz_read_character gives it), one event out. Of an invalid character byte and control are
 * not looked at. *value and *number are 0 where the event has none.
 * 1: bytes that encode no state, a violation over 2, a byte over 255, a control byte that is none of the twelve. */
uint32_t buzz_reader_step(buzz_reader *reader, uint32_t violation, uint32_t byte, uint32_t control,
                          uint32_t *event, uint32_t *value, uint32_t *number);

/* A whole capture, an event for each character in the front of events; *count becomes their number, *reader and *disparity the ones after it.
 * An event is one number: the kind BUZZ_EVENT(e), its value BUZZ_VALUE(e) and its segment number BUZZ_NUMBER(e), as buzz_reader_step gives them.
 * 8: the capture is not legal; 1: bytes that encode no state, no disparity; 6: fewer places than characters. */
#define BUZZ_EVENT(e) ((uint32_t)(e) >> 16)
#define BUZZ_VALUE(e) ((uint32_t)(e) & 255u)
#define BUZZ_NUMBER(e) (((uint32_t)(e) >> 8) & 255u)
uint32_t buzz_read_capture(const uint8_t *capture, size_t length, buzz_reader *reader, int32_t *disparity,
                           uint32_t *events, size_t room, size_t *count);

/* ---- the packet writer: characters in the front of a run, *count of them; *disparity becomes the closing one ---- */

/* A data packet of one or more bytes: length + 6 characters. 1: channel over 255, no disparity; 4; 6. */
uint32_t buzz_write_data(uint32_t channel, const uint8_t *bytes, size_t length, uint32_t bad, int32_t *disparity,
                         uint16_t *characters, size_t room, size_t *count);

/* A priority packet of 1 to size bytes: length + 6 characters. 1: channel or segment over 15, no disparity; 2; 4; 6. */
uint32_t buzz_write_priority(uint32_t size, uint32_t channel, uint32_t segment, const uint8_t *bytes, size_t length,
                             uint32_t bad, int32_t *disparity, uint16_t *characters, size_t room, size_t *count);

/* A retry LMP, ACK or NACK: 4 characters. 1: number over 15, no disparity; 6. */
uint32_t buzz_write_lmp(uint32_t nack, uint32_t number, int32_t *disparity, uint16_t *characters, size_t room, size_t *count);

/* The CRC of a run of bytes, its two check bytes as a packet carries them. Never refused. */
uint32_t buzz_crc16(const uint8_t *bytes, size_t length, uint8_t check[2]);

/* ---- the sending end of the retry. buffers is one run of 8 times S bytes, which only these calls write. ---- */

/* A fresh sender with T = columns, 1 to 65535, and S = size. 1; 2. */
uint32_t buzz_sender_fresh(uint32_t columns, uint32_t size, buzz_sender *sender);

/* The sender fresh again; taken also while the link is down. 1: no state, T; 2. */
uint32_t buzz_sender_reset(buzz_sender *sender, uint32_t columns, uint32_t size);

/* Stores a segment (channel 0 to 15, bad mark, 1 to S bytes); *number becomes its number. 7; 1: no state, a run of buffers of
 * another length, channel; 2: over S bytes; 4; 5: eight are stored. */
uint32_t buzz_sender_offer(buzz_sender *sender, uint8_t *buffers, size_t buffers_length, uint32_t channel, uint32_t bad,
                           const uint8_t *bytes, size_t length, uint32_t *number);

/* The segment at the send point: *sent is 1 and its number, channel, bad mark and length are given, its bytes in the front
 * of output; or *sent is 0, there was nothing to send, and the other numbers become 0. 7; 1; 6: output shorter than the segment. */
uint32_t buzz_sender_send(buzz_sender *sender, const uint8_t *buffers, size_t buffers_length, uint8_t *output, size_t output_length,
                          uint32_t *sent, uint32_t *number, uint32_t *channel, uint32_t *bad, uint32_t *length);

/* A reply, ACK or NACK with a number 0 to 15. 7; 1. */
uint32_t buzz_sender_reply(buzz_sender *sender, uint32_t nack, uint32_t number);

/* A damaged reply, which is ignored. 7; 1. */
uint32_t buzz_sender_damaged_reply(buzz_sender *sender);

/* One column of the timer. *fell becomes 1 if this call took the link down, else 0. 7; 1. */
uint32_t buzz_sender_tick(buzz_sender *sender, uint32_t *fell);

/* ---- the receiving end of the retry ---- */

/* A fresh receiver with S = size. 2. */
uint32_t buzz_receiver_fresh(uint32_t size, buzz_receiver *receiver);

/* A valid segment arrives (number and channel 0 to 15, bad mark, 1 to S bytes); room is the host's mark. *delivered becomes 1, the bytes
 * stand in the front of output, and their channel, bad mark and length are given; or it becomes 0, and so do those three. The reply to
 * send is *nack with *reply. 1; 2; 4; 6: it would be delivered and output is shorter; then there is no reply and nothing happened. */
uint32_t buzz_receiver_arrival(buzz_receiver *receiver, uint32_t number, uint32_t channel, uint32_t bad, const uint8_t *bytes,
                               size_t length, uint32_t room, uint8_t *output, size_t output_length,
                               uint32_t *delivered, uint32_t *delivered_channel, uint32_t *delivered_bad, uint32_t *delivered_length,
                               uint32_t *nack, uint32_t *reply);

/* A damaged segment arrives: the reply to send. 1. */
uint32_t buzz_receiver_damaged_arrival(buzz_receiver *receiver, uint32_t *nack, uint32_t *reply);

#ifdef __cplusplus
}
#endif

#endif
