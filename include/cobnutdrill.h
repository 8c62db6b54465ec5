/*
 * The MIDI engine of the DeepMind stage box, for C and C++. Link target/staticlib/libcobnutdrill.a (`make lib` leaves it there).
 *
 * What holds of every call here:
 *
 * - It ends, and does nothing undefined, whatever numbers, lengths and contents it is given.
 * - It allocates nothing and keeps no pointer: what is lent is the caller's again when the call returns.
 * - What is lent as a pointer and a length must be valid for that many bytes, readable, and writable where it is not const. The pointer is never
 *   NULL, also where the length is 0. Parts that are lent to the same call must not overlap, and nobody else may touch them meanwhile.
 * - A refusal leaves all lent bytes as they were. A writer that accepts writes exactly as many bytes as it answers, from the
 *   front, and leaves the others.
 * - An answer's `number` is 0 where the call is done, a refusal's number of the first rule that was broken, or DM_NO_RECORD. Details
 *   are those of the refusal in the order that stands beside its number below, and 0 behind the last.
 */
#ifndef COBNUTDRILL_H
#define COBNUTDRILL_H

#include <stddef.h>
#include <stdint.h>

#ifdef __cplusplus
extern "C" {
#endif

/* The refusals, with their details. */
#define DM_UNFRAMED 1                     /* none */
#define DM_NOT_SEVEN_BIT 2                /* the byte */
#define DM_SHORT_FRAME 3                  /* the length */
#define DM_FOREIGN 4                      /* three bytes where the maker stands, the model */
#define DM_INVALID_DEVICE_ID 5            /* the byte */
#define DM_UNKNOWN_COMMAND 6              /* the byte */
#define DM_PAYLOAD_LENGTH 7               /* the command, the length expected, the length found */
#define DM_UNSUPPORTED_PROTOCOL_VERSION 8 /* the byte */
#define DM_BANK_OUT_OF_RANGE 9            /* the byte */
#define DM_PROGRAM_OUT_OF_RANGE 10        /* the byte */
#define DM_PATTERN_OUT_OF_RANGE 11        /* the byte */
#define DM_INVALID_INTERFACE 12           /* the byte */
#define DM_PACKED_RUN_LENGTH 13           /* the length */
#define DM_BUFFER_TOO_SMALL 14            /* the length needed, the length available */
#define DM_NOT_AN_INQUIRY_REQUEST 15      /* none */
#define DM_NOT_AN_INQUIRY_RESPONSE 16     /* none */
#define DM_CHANNEL_OUT_OF_RANGE 17        /* the byte */
#define DM_SYSEX_INTERRUPTED 18           /* a report of dm_feed, none */
#define DM_SYSEX_TOO_LONG 19              /* a report of dm_feed, and a refusal of dm_running_frame: the frame limit */
#define DM_BAD_STORE 20                   /* none */
#define DM_VALUE_TOO_LARGE 21             /* the value */
#define DM_LENGTH_OVERFLOW 22             /* none */

/* The number where no record names the kind that was asked for, or a flag that is looked at is neither 0 nor 1. It has no details, and nothing is
 * written. */
#define DM_NO_RECORD 255

/* The bytes of a decoder's state, and the frame limit: the least length of its store, and the longest frame that is reported. */
#define DM_STATE_LEN 14
#define DM_MAX_SYSEX_LEN 2354

/* The bytes of a running-status state: 00 00 where there is none, else 01 and the status byte 80 to EF. */
#define DM_RUNNING_LEN 2

/* The bytes of a held-key record, of an identity request and of an identity reply. */
#define DM_HELD_LEN 256
#define DM_REQUEST_LEN 6
#define DM_REPLY_LEN 17

/* The kinds of reports; 19, DM_SYSEX_TOO_LONG, is one too. */
#define DM_NOTHING 0
#define DM_CHANNEL 1
#define DM_SYSEX 2
#define DM_COMMON 3
#define DM_REALTIME 4

/* What most calls answer. value: what was asked for, 0 unless number is 0. */
typedef struct dm_answer {
    uint64_t number;
    uint64_t value;
    uint64_t detail0;
    uint64_t detail1;
    uint64_t detail2;
    uint64_t detail3;
} dm_answer;

/* ---- Small numbers --------------------------------------------------------------------------------------------------------------------- */

/* value: the bank that the byte names, 0 to 7. Refuses DM_BANK_OUT_OF_RANGE for any other byte. */
dm_answer dm_bank(uint8_t byte);

/* value: the program that the byte names, 0 to 127. Refuses DM_PROGRAM_OUT_OF_RANGE for any other byte. */
dm_answer dm_program(uint8_t byte);

/* value: the pattern that the byte names, 0 to 31. Refuses DM_PATTERN_OUT_OF_RANGE for any other byte. */
dm_answer dm_pattern(uint8_t byte);

/* value: the protocol version that the byte names, 6 or 7. Refuses DM_UNSUPPORTED_PROTOCOL_VERSION for any other byte. */
dm_answer dm_version(uint8_t byte);

/* value: how many raw bytes a program dump of this protocol version holds. Refuses DM_UNSUPPORTED_PROTOCOL_VERSION for a byte other than 6 and 7. */
dm_answer dm_program_data_len(uint8_t byte);

/* value: the device byte itself, 0 to 15 for a unit, 127 for everyone. Refuses DM_INVALID_DEVICE_ID for any other byte. */
dm_answer dm_device(uint8_t byte);

/* value: the channel that the byte names, 0 to 15. Refuses DM_CHANNEL_OUT_OF_RANGE for any other byte. */
dm_answer dm_channel(uint8_t byte);

/* value: the interface that the byte names, 0 the sockets, 1 USB, 2 Wi-Fi. Refuses DM_INVALID_INTERFACE for any other byte. */
dm_answer dm_interface(uint8_t byte);

/* value: the byte, where it is one of the 22 command bytes. Refuses DM_UNKNOWN_COMMAND for any other byte. */
dm_answer dm_command(uint8_t byte);

/* ---- Packed runs: seven raw bytes in eight bytes below 80 ----------------------------------------------------------------------- */

/* value: how many bytes n raw bytes take when they are packed. Refuses DM_LENGTH_OVERFLOW where that is 2 to the 64th or more. */
dm_answer dm_packed_len(size_t n);

/* value: how many raw bytes n packed bytes hold. Refuses DM_PACKED_RUN_LENGTH for a length that leaves 1 when divided by 8. */
dm_answer dm_unpacked_len(size_t n);

/* Packs raw into out, the last group filled with 00. value: the count written. Refuses DM_LENGTH_OVERFLOW, DM_BUFFER_TOO_SMALL. */
dm_answer dm_pack(const uint8_t *raw, size_t raw_len, uint8_t *out, size_t out_len);

/* Unpacks run into out; top bits of its data bytes are ignored. value: the count written. Refuses DM_PACKED_RUN_LENGTH, DM_BUFFER_TOO_SMALL. */
dm_answer dm_unpack(const uint8_t *run, size_t run_len, uint8_t *out, size_t out_len);

/* ---- Messages ------------------------------------------------------------------------------------------------------------------------- */

/* value: how many data bytes follow a channel status byte. DM_NO_RECORD for any other byte. */
dm_answer dm_data_len(uint8_t status);

/* value: the byte of a real-time message. DM_NO_RECORD for any other byte, F9 and FD too. */
dm_answer dm_realtime(uint8_t byte);

/*
 * Writes a channel message. nibble: 80 note off, 90 note on, A0 key pressure, B0 control change, C0 program change, D0 channel pressure, E0
 * bend. a: the whole of a bend, and else the first data byte; b: the second data byte, where the message has one. The low seven bits of data and
 * fourteen of a bend are kept. value: the count written. DM_NO_RECORD, ahead of every refusal, for another nibble. Refuses
 * DM_CHANNEL_OUT_OF_RANGE, DM_BUFFER_TOO_SMALL.
 */
dm_answer dm_channel_write(uint8_t nibble, uint8_t channel, uint16_t a, uint8_t b, uint8_t *out, size_t out_len);

/*
 * Writes a system common message. status: F1 time code and F3 song select, with a value to 127; F2 song position, to 16,383; F6 tune
 * request, whose value is ignored. value: the count written. DM_NO_RECORD, ahead of every refusal, for another status. Refuses
 * DM_VALUE_TOO_LARGE, DM_BUFFER_TOO_SMALL.
 */
dm_answer dm_common_write(uint8_t status, uint16_t value, uint8_t *out, size_t out_len);

/* Writes a real-time message, one byte. value: 1. DM_NO_RECORD for any other byte, F9 and FD too. Refuses DM_BUFFER_TOO_SMALL. */
dm_answer dm_realtime_write(uint8_t byte, uint8_t *out, size_t out_len);

/* ---- Messages with running status ------------------------------------------------------------------------------------------------------ */

/*
 * These write one message after another for one cable, and leave out the status byte of a channel message where it is the running status there. A
 * frame or a system common message clears the running status, a real-time message does not. state is DM_RUNNING_LEN bytes that the caller keeps for
 * that cable: dm_running_fresh writes them, and each of the other four calls gets them as the last one left them. One of these four that accepts writes
 * state and out, and its value is the count written; send those bytes, and nothing else, on that cable. One that refuses, or answers DM_NO_RECORD,
 * leaves both as they were.
 *
 * A listener who has missed bytes may misread all that comes ahead of the next status byte. So begin again with dm_running_fresh where a plug may
 * have been put in, where something else was sent on the cable, and behind FF where the listener forgets all it knows at a reset.
 *
 * The four calls that write a message refuse DM_BAD_STORE first, for another length than DM_RUNNING_LEN and for bytes that are no state.
 * DM_BUFFER_TOO_SMALL comes last, and tells the bytes that would be written: a status byte that is left out is not counted.
 */

/* Writes the state with no running status, whatever the bytes held. value: DM_RUNNING_LEN. Refuses DM_BAD_STORE for any other length than that. */
dm_answer dm_running_fresh(uint8_t *state, size_t state_len);

/*
 * Writes a channel message of at most three bytes. nibble: 80 note off, 90 note on, A0 key pressure, B0 control change, C0 program change, D0 channel
 * pressure, E0 bend. a: the whole of a bend, and else the first data byte; b: the second data byte, where the message has one. The low seven bits of
 * data and fourteen of a bend are kept. Behind DM_BAD_STORE comes DM_NO_RECORD for another nibble; then it refuses DM_CHANNEL_OUT_OF_RANGE,
 * DM_BUFFER_TOO_SMALL.
 */
dm_answer dm_running_channel(uint8_t *state, size_t state_len, uint8_t nibble, uint8_t channel, uint16_t a, uint8_t b, uint8_t *out, size_t out_len);

/*
 * Writes a system common message of at most three bytes. status: F1 time code and F3 song select, with a value to 127; F2 song position, to 16,383;
 * F6 tune request, whose value is ignored. Behind DM_BAD_STORE comes DM_NO_RECORD for another status; then it refuses DM_VALUE_TOO_LARGE,
 * DM_BUFFER_TOO_SMALL.
 */
dm_answer dm_running_common(uint8_t *state, size_t state_len, uint8_t status, uint16_t value, uint8_t *out, size_t out_len);

/*
 * Writes a real-time message, one byte. Behind DM_BAD_STORE comes DM_NO_RECORD for a byte that is none, F9 and FD too; then it refuses
 * DM_BUFFER_TOO_SMALL.
 */
dm_answer dm_running_realtime(uint8_t *state, size_t state_len, uint8_t byte, uint8_t *out, size_t out_len);

/*
 * Writes a frame, given as its bytes from F0 to F7, of which it asks no more than that. Behind DM_BAD_STORE it refuses DM_UNFRAMED, DM_NOT_SEVEN_BIT
 * for a byte of 80 or above between the ends, real-time bytes too, DM_SYSEX_TOO_LONG for more than DM_MAX_SYSEX_LEN bytes, DM_BUFFER_TOO_SMALL.
 */
dm_answer dm_running_frame(uint8_t *state, size_t state_len, const uint8_t *frame, size_t frame_len, uint8_t *out, size_t out_len);

/* ---- The stream decoder ----------------------------------------------------------------------------------------------------------- */

/*
 * What a call of dm_feed did. number: 0, or DM_BAD_STORE, and then all else is 0. used: how many bytes it took. interrupted: 1 where a frame
 * was interrupted (report 18), which comes first. kind: the report of the last byte used, and its numbers:
 *   DM_NOTHING         none
 *   DM_CHANNEL         status: the status byte with its channel; first, second: the data bytes, or first the whole bend
 *   DM_SYSEX           first: the frame's length; its bytes are the first of the store, until the next call
 *   DM_COMMON          status: F1, F2, F3 or F6; first: the value
 *   DM_REALTIME        status: the byte
 *   DM_SYSEX_TOO_LONG  first: the frame limit
 */
typedef struct dm_fed_answer {
    uint64_t number;
    uint64_t used;
    uint64_t interrupted;
    uint64_t kind;
    uint64_t status;
    uint64_t first;
    uint64_t second;
} dm_fed_answer;

/* The frame limit, DM_MAX_SYSEX_LEN. */
uint64_t dm_capacity(void);

/* Writes a fresh state of DM_STATE_LEN bytes, whatever they held. value: DM_STATE_LEN. Refuses DM_BAD_STORE for any other length than that. */
dm_answer dm_fresh(uint8_t *state, size_t state_len);

/*
 * Closes a state's frame and clears its status and pending data, whatever the bytes hold. value: DM_STATE_LEN. Refuses DM_BAD_STORE for any other
 * length than DM_STATE_LEN.
 */
dm_answer dm_reset(uint8_t *state, size_t state_len);

/*
 * value: 1 while a frame is open, else 0. Refuses DM_BAD_STORE for another length than DM_STATE_LEN, and for bytes that are no state. dm_fresh
 * and dm_reset write a state, and dm_feed leaves one where it was given one.
 */
dm_answer dm_in_sysex(const uint8_t *state, size_t state_len);

/*
 * Takes bytes until the first that reports, or all. Lend the same state and store at every call, as the last call left them; hand in again what
 * was not used. It writes the state, and the store where a frame is open. Refuses DM_BAD_STORE, for a store shorter than DM_MAX_SYSEX_LEN and for
 * bytes that are no sound state, also where no byte is handed in; then nothing is used and nothing is written.
 */
dm_fed_answer dm_feed(uint8_t *state, size_t state_len, uint8_t *store, size_t store_len, const uint8_t *bytes, size_t bytes_len);

/* ---- Frames ----------------------------------------------------------------------------------------------------------------------------- */

/*
 * What a frame says. number: 0 where it is read; else the refusal's number and details, and all behind them 0. everyone: 1 for device byte 7F, and
 * then unit is 0. A field that the command lacks is 0. has_pattern: 1 where a pattern dump names its pattern. The run is the run_len bytes
 * from run_start on in the caller's bytes; 0 and 0 where the command has none.
 */
typedef struct dm_read_answer {
    uint64_t number;
    uint64_t detail0;
    uint64_t detail1;
    uint64_t detail2;
    uint64_t detail3;
    uint64_t everyone;
    uint64_t unit;
    uint64_t command;
    uint64_t free;
    uint64_t version;
    uint64_t bank;
    uint64_t program;
    uint64_t last;
    uint64_t pattern;
    uint64_t has_pattern;
    uint64_t interface;
    uint64_t rx;
    uint64_t tx;
    uint64_t run_start;
    uint64_t run_len;
} dm_read_answer;

/*
 * Reads a frame, F0 to F7. Refuses DM_UNFRAMED, DM_NOT_SEVEN_BIT, DM_SHORT_FRAME, DM_FOREIGN, DM_INVALID_DEVICE_ID, DM_UNKNOWN_COMMAND, and then by
 * the payload DM_PAYLOAD_LENGTH, DM_UNSUPPORTED_PROTOCOL_VERSION, for the run's length DM_PAYLOAD_LENGTH or DM_PACKED_RUN_LENGTH,
 * DM_INVALID_INTERFACE, DM_BANK_OUT_OF_RANGE, DM_PATTERN_OUT_OF_RANGE.
 */
dm_read_answer dm_frame_read(const uint8_t *bytes, size_t bytes_len);

/*
 * value: how many bytes a frame of this command takes, F0 to F7, with a run of run_len bytes where the command has one. has_pattern: 1 where a
 * pattern dump names its pattern; it is looked at for command 08 alone. DM_NO_RECORD, ahead of every refusal, for command 08 with a has_pattern
 * above 1. Refuses DM_UNKNOWN_COMMAND, DM_LENGTH_OVERFLOW.
 */
dm_answer dm_frame_len(uint8_t command, uint8_t has_pattern, size_t run_len);

/*
 * Writes a frame to everyone (everyone 1, unit ignored) or to a unit (everyone 0). has_pattern: 1 where a pattern dump names its pattern. Fields
 * and the run that the command lacks are neither tested nor written, has_pattern among them for every command but 08; a run's length is not
 * tested. value: the count written. DM_NO_RECORD, ahead of every refusal, for everyone above 1 and for command 08 with has_pattern above 1. Refuses
 * DM_INVALID_DEVICE_ID, DM_UNKNOWN_COMMAND, then the command's fields in the order in which they are sent (DM_UNSUPPORTED_PROTOCOL_VERSION,
 * DM_INVALID_INTERFACE, DM_BANK_OUT_OF_RANGE, DM_PROGRAM_OUT_OF_RANGE, DM_PATTERN_OUT_OF_RANGE), DM_LENGTH_OVERFLOW, DM_BUFFER_TOO_SMALL, and
 * DM_NOT_SEVEN_BIT for the first byte of the payload that is 80 or above.
 */
dm_answer dm_frame_write(uint8_t everyone, uint8_t unit, uint8_t command, uint8_t free, uint8_t version, uint8_t bank, uint8_t program,
                         uint8_t last, uint8_t pattern, uint8_t has_pattern, uint8_t interface, uint8_t rx, uint8_t tx, const uint8_t *run,
                         size_t run_len, uint8_t *out, size_t out_len);

/* ---- Identity --------------------------------------------------------------------------------------------------------------------------- */

/* Whom a request asks. number: 0, or a refusal with its detail, and then all else is 0. everyone: 1 for device byte 7F, and then unit is 0. */
typedef struct dm_request_answer {
    uint64_t number;
    uint64_t detail0;
    uint64_t everyone;
    uint64_t unit;
} dm_request_answer;

/*
 * What a reply says. number: 0, or a refusal with its detail, and then all else is 0. everyone: 1 for device byte 7F, and then unit is 0. major,
 * minor: the firmware's version. voice_major, voice_minor: the two voice bytes.
 */
typedef struct dm_reply_answer {
    uint64_t number;
    uint64_t detail0;
    uint64_t everyone;
    uint64_t unit;
    uint64_t major;
    uint64_t minor;
    uint64_t voice_major;
    uint64_t voice_minor;
} dm_reply_answer;

/* Reads an identity request. Refuses DM_UNFRAMED, DM_NOT_AN_INQUIRY_REQUEST, DM_INVALID_DEVICE_ID. */
dm_request_answer dm_request_read(const uint8_t *bytes, size_t bytes_len);

/* Reads an identity reply. Refuses DM_UNFRAMED, DM_NOT_AN_INQUIRY_RESPONSE, DM_INVALID_DEVICE_ID. */
dm_reply_answer dm_reply_read(const uint8_t *bytes, size_t bytes_len);

/*
 * Writes an identity request of DM_REQUEST_LEN bytes to everyone (everyone 1, unit ignored) or to a unit (everyone 0). value: the count written.
 * DM_NO_RECORD, ahead of every refusal, for everyone above 1. Refuses DM_INVALID_DEVICE_ID, DM_BUFFER_TOO_SMALL.
 */
dm_answer dm_request_write(uint8_t everyone, uint8_t unit, uint8_t *out, size_t out_len);

/*
 * Writes an identity reply of DM_REPLY_LEN bytes, its device byte that of everyone (everyone 1, unit ignored) or of a unit (everyone 0). Three bits
 * of minor and four of major are kept, and voice bytes stand as they are. value: the count written. DM_NO_RECORD, ahead of every refusal, for
 * everyone above 1. Refuses DM_INVALID_DEVICE_ID, DM_BUFFER_TOO_SMALL.
 */
dm_answer dm_reply_write(uint8_t everyone, uint8_t unit, uint8_t major, uint8_t minor, uint8_t voice_major, uint8_t voice_minor, uint8_t *out,
                         size_t out_len);

/* ---- Held keys -------------------------------------------------------------------------------------------------------------------------- */

/*
 * A record is DM_HELD_LEN bytes, sixteen for each channel: key k of channel c is bit k % 8 of byte 16 * c + k / 8. Every content is a record.
 */

/*
 * What dm_held_first finds. number: 0, or DM_BAD_STORE, and then all else is 0. found: 1 where a key is held, with its channel and key, and 0 where
 * none is; then channel and key are 0.
 */
typedef struct dm_held_answer {
    uint64_t number;
    uint64_t found;
    uint64_t channel;
    uint64_t key;
} dm_held_answer;

/* Writes a record in which no key is held. value: DM_HELD_LEN. Refuses DM_BAD_STORE for any other length than DM_HELD_LEN. */
dm_answer dm_held_fresh(uint8_t *keys, size_t keys_len);

/*
 * Applies a channel message to a record. nibble: 90 note on, which holds its key with a velocity of 1 to 127 and releases it with velocity 0; 80 note
 * off, which releases it; A0 key pressure, B0 control change, C0 program change, D0 channel pressure and E0 bend, which change nothing. a: a note's
 * key, b: its velocity, of each of which the low seven bits count. value: 0. Refuses DM_BAD_STORE for any other length than DM_HELD_LEN; DM_NO_RECORD for
 * another nibble; then refuses DM_CHANNEL_OUT_OF_RANGE.
 */
dm_answer dm_held_apply(uint8_t *keys, size_t keys_len, uint8_t nibble, uint8_t channel, uint16_t a, uint8_t b);

/* value: how many keys are held on a channel. Refuses DM_BAD_STORE for any other length than DM_HELD_LEN, then DM_CHANNEL_OUT_OF_RANGE. */
dm_answer dm_held_count(const uint8_t *keys, size_t keys_len, uint8_t channel);

/* Finds the first held key, lowest channel and then lowest key. Refuses DM_BAD_STORE for any other length than DM_HELD_LEN. */
dm_held_answer dm_held_first(const uint8_t *keys, size_t keys_len);

#ifdef __cplusplus
}
#endif

#endif
