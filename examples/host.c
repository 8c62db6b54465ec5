/*
 * A host as the box's loop would be: MIDI bytes come in pieces on standard input, each report is printed with the place of its byte and what it
 * says, and what the box would pass on is written again by the engine's writers, with running status. The keys that are held at the end are told,
 * and how many bytes running status saved.
 */
#include "cobnutdrill.h"

#include <stdio.h>
#include <stdlib.h>
#include <string.h>

enum { LONGEST_PIECE = 4096, SHOWN = 12 };

struct box {
    uint8_t state[DM_STATE_LEN];
    uint8_t store[DM_MAX_SYSEX_LEN];
    uint8_t keys[DM_HELD_LEN];
    uint8_t running[DM_RUNNING_LEN]; /* of the cable that the box sends on */
    uint8_t made[DM_MAX_SYSEX_LEN];  /* a frame, as its writer left it */
    uint8_t out[DM_MAX_SYSEX_LEN];   /* what is sent on */
    unsigned long place;             /* of the next byte */
    unsigned long saved;             /* status bytes that were left out */
    int wrong;                       /* an answer that the header excludes was seen */
};

/* The refusals by number, and how many details each has. */
static const struct {
    const char *name;
    int details;
} REFUSALS[] = {{"done", 0},
                {"unframed", 0},
                {"not seven bit", 1},
                {"short frame", 1},
                {"foreign", 4},
                {"invalid device id", 1},
                {"unknown command", 1},
                {"payload length", 3},
                {"unsupported protocol version", 1},
                {"bank out of range", 1},
                {"program out of range", 1},
                {"pattern out of range", 1},
                {"invalid interface", 1},
                {"packed run length", 1},
                {"buffer too small", 2},
                {"not an inquiry request", 0},
                {"not an inquiry response", 0},
                {"channel out of range", 1},
                {"sysex interrupted", 0},
                {"sysex too long", 1},
                {"bad store", 0},
                {"value too large", 1},
                {"length overflow", 0}};

/* The commands, each with the fields that it has: free, version, bank, program, last, number of a pattern, rx, tx, interface. */
static const struct {
    uint8_t command;
    const char *fields;
    const char *name;
} COMMANDS[] = {{0x00, "f", "control app notify request"},
                {0x01, "bp", "program dump request"},
                {0x02, "vbp", "program dump"},
                {0x03, "", "edit buffer dump request"},
                {0x04, "v", "edit buffer dump"},
                {0x05, "", "global parameter dump request"},
                {0x06, "v", "global parameter dump"},
                {0x07, "n", "user pattern dump request"},
                {0x08, "v", "user pattern dump"},
                {0x09, "bpl", "program bank dump request"},
                {0x0A, "b", "program names dump request"},
                {0x0B, "vb", "program names dump"},
                {0x0C, "bp", "program name dump request"},
                {0x0D, "vb", "program name dump"},
                {0x0E, "", "edit buffer pattern dump request"},
                {0x10, "rtibp", "control app notify response"},
                {0x11, "", "calibration dump request"},
                {0x12, "v", "calibration dump"},
                {0x1B, "", "chord memory dump request"},
                {0x1C, "v", "chord memory dump"},
                {0x1D, "", "poly chord memory dump request"},
                {0x1E, "v", "poly chord memory dump"}};

static void print_bytes(const uint8_t *bytes, uint64_t count)
{
    uint64_t i;
    for (i = 0; i < count && i < SHOWN; i++)
        printf(" %02x", bytes[i]);
    if (count > SHOWN)
        printf(" .. (%lu bytes)", (unsigned long)count);
}

static void print_refusal(uint64_t number, const uint64_t *details)
{
    int i;
    if (number > DM_LENGTH_OVERFLOW) {
        printf("no record (%lu)", (unsigned long)number);
        return;
    }
    printf("refused %lu, %s", (unsigned long)number, REFUSALS[number].name);
    for (i = 0; i < REFUSALS[number].details; i++)
        printf(" %lu", (unsigned long)details[i]);
}

static void print_device(uint64_t everyone, uint64_t unit)
{
    if (everyone)
        printf(" everyone");
    else
        printf(" unit %lu", (unsigned long)unit);
}

/* What a call of dm_running_* left in the box's buffer is what the box sends on. */
static void send_on(struct box *box, dm_answer written)
{
    const uint64_t details[4] = {written.detail0, written.detail1, written.detail2, written.detail3};
    if (written.number != 0) {
        printf("; ");
        print_refusal(written.number, details);
        box->wrong = 1;
        return;
    }
    printf("; on:");
    print_bytes(box->out, written.value);
}

/* Sends on the frame that its writer made. */
static void send_frame_on(struct box *box, dm_answer made)
{
    if (made.number == 0)
        made = dm_running_frame(box->running, sizeof box->running, box->made, (size_t)made.value, box->out, sizeof box->out);
    send_on(box, made);
}

static void on_channel(struct box *box, const dm_fed_answer *fed)
{
    static const char *const NAMES[] = {"note off", "note on", "key pressure", "control change", "program change", "channel pressure", "bend"};
    const uint8_t nibble = (uint8_t)(fed->status & 0xF0), channel = (uint8_t)(fed->status & 0x0F);
    const dm_answer written = dm_running_channel(box->running, sizeof box->running, nibble, channel, (uint16_t)fed->first, (uint8_t)fed->second,
                                                 box->out, sizeof box->out);
    printf("%s, channel %d: %lu", NAMES[(nibble - 0x80) / 16], channel + 1, (unsigned long)fed->first);
    if (nibble < 0xC0)
        printf(" %lu", (unsigned long)fed->second);
    if (dm_held_apply(box->keys, sizeof box->keys, nibble, channel, (uint16_t)fed->first, (uint8_t)fed->second).number != 0)
        box->wrong = 1;
    if (written.number == 0)
        box->saved += (unsigned long)(1 + dm_data_len((uint8_t)fed->status).value - written.value);
    send_on(box, written);
}

static void on_common(struct box *box, const dm_fed_answer *fed)
{
    printf("system common %02lx: %lu", (unsigned long)fed->status, (unsigned long)fed->first);
    send_on(box, dm_running_common(box->running, sizeof box->running, (uint8_t)fed->status, (uint16_t)fed->first, box->out, sizeof box->out));
}

static void on_realtime(struct box *box, const dm_fed_answer *fed)
{
    printf("real-time %02lx", (unsigned long)fed->status);
    send_on(box, dm_running_realtime(box->running, sizeof box->running, (uint8_t)fed->status, box->out, sizeof box->out));
    /* A listener may forget its running status at a system reset: the next channel message gets its status byte. */
    if (fed->status == 0xFF && dm_running_fresh(box->running, sizeof box->running).number != 0)
        box->wrong = 1;
}

/* Identity requests get an answer; replies are told. Gives 0 where the frame is neither. */
static int on_identity(struct box *box, const uint8_t *frame, size_t length)
{
    const dm_request_answer asked = dm_request_read(frame, length);
    const dm_reply_answer told = dm_reply_read(frame, length);
    if (asked.number == 0) {
        printf("identity request,");
        print_device(asked.everyone, asked.unit);
        send_frame_on(box, dm_reply_write(0, (uint8_t)asked.unit, 1, 2, 0, 0, box->made, sizeof box->made));
        return 1;
    }
    if (asked.number == DM_INVALID_DEVICE_ID || told.number == DM_INVALID_DEVICE_ID) {
        const uint64_t detail = asked.number == DM_INVALID_DEVICE_ID ? asked.detail0 : told.detail0;
        printf("identity: ");
        print_refusal(DM_INVALID_DEVICE_ID, &detail);
        return 1;
    }
    if (told.number == 0) {
        printf("identity reply,");
        print_device(told.everyone, told.unit);
        printf(", firmware %lu.%lu, voice %lu %lu", (unsigned long)told.major, (unsigned long)told.minor, (unsigned long)told.voice_major,
               (unsigned long)told.voice_minor);
        return 1;
    }
    return 0;
}

static void print_field(const char *name, uint64_t value)
{
    printf(", %s %lu", name, (unsigned long)value);
}

/* The command's name, the device, and each field that the command has. */
static void print_head(const dm_read_answer *read)
{
    const char *field = "";
    size_t i;
    for (i = 0; i < sizeof COMMANDS / sizeof COMMANDS[0]; i++)
        if (COMMANDS[i].command == read->command) {
            printf("%s,", COMMANDS[i].name);
            field = COMMANDS[i].fields;
        }
    print_device(read->everyone, read->unit);
    for (; *field != '\0'; field++)
        switch (*field) {
        case 'f': print_field("free", read->free); break;
        case 'v': print_field("version", read->version); break;
        case 'b': print_field("bank", read->bank); break;
        case 'p': print_field("program", read->program); break;
        case 'l': print_field("last", read->last); break;
        case 'n': print_field("pattern", read->pattern); break;
        case 'r': print_field("rx", read->rx); break;
        case 't': print_field("tx", read->tx); break;
        default: print_field("interface", read->interface);
        }
    if (read->has_pattern)
        print_field("pattern", read->pattern);
}

/* A frame that is read, written again and sent on must be the same bytes. */
static void write_again(struct box *box, const dm_read_answer *read, const uint8_t *frame, size_t length)
{
    const dm_answer needed = dm_frame_len((uint8_t)read->command, (uint8_t)read->has_pattern, (size_t)read->run_len);
    const dm_answer written = dm_frame_write(
        (uint8_t)read->everyone, (uint8_t)read->unit, (uint8_t)read->command, (uint8_t)read->free, (uint8_t)read->version, (uint8_t)read->bank,
        (uint8_t)read->program, (uint8_t)read->last, (uint8_t)read->pattern, (uint8_t)read->has_pattern, (uint8_t)read->interface,
        (uint8_t)read->rx, (uint8_t)read->tx, frame + read->run_start, (size_t)read->run_len, box->made, sizeof box->made);
    send_frame_on(box, written);
    if (needed.value != length || written.value != length || memcmp(box->out, frame, length) != 0)
        box->wrong = 1;
}

static void on_frame(struct box *box, const uint8_t *frame, size_t length)
{
    const dm_read_answer read = dm_frame_read(frame, length);
    const uint64_t details[4] = {read.detail0, read.detail1, read.detail2, read.detail3};
    if (read.number != 0) {
        if (!on_identity(box, frame, length)) {
            printf("frame");
            print_bytes(frame, length);
            printf(": ");
            print_refusal(read.number, details);
        }
        return;
    }
    print_head(&read);
    if (read.run_len != 0) {
        const dm_answer raw = dm_unpack(frame + read.run_start, (size_t)read.run_len, box->out, sizeof box->out);
        printf(", %lu packed bytes, %lu raw", (unsigned long)read.run_len, (unsigned long)raw.value);
    }
    write_again(box, &read, frame, length);
}

static void on_report(struct box *box, const dm_fed_answer *fed)
{
    if (fed->interrupted)
        printf("%lu: a frame was interrupted (18)\n", box->place - 1);
    if (fed->kind == DM_NOTHING)
        return;
    printf("%lu: ", box->place - 1);
    switch (fed->kind) {
    case DM_CHANNEL: on_channel(box, fed); break;
    case DM_SYSEX: on_frame(box, box->store, (size_t)fed->first); break;
    case DM_COMMON: on_common(box, fed); break;
    case DM_REALTIME: on_realtime(box, fed); break;
    case DM_SYSEX_TOO_LONG: printf("a frame was dropped: more than %lu bytes (19)", (unsigned long)fed->first); break;
    default: box->wrong = 1;
    }
    printf("\n");
}

/* Hands a piece in until all of it is used. */
static void hand_in(struct box *box, const uint8_t *piece, size_t length)
{
    size_t at = 0;
    while (at < length && !box->wrong) {
        const dm_fed_answer fed = dm_feed(box->state, sizeof box->state, box->store, sizeof box->store, piece + at, length - at);
        if (fed.number != 0 || fed.used == 0 || fed.used > length - at)
            box->wrong = 1;
        else {
            at += (size_t)fed.used;
            box->place += (unsigned long)fed.used;
            on_report(box, &fed);
        }
    }
}

static void at_the_end(struct box *box)
{
    const dm_held_answer first = dm_held_first(box->keys, sizeof box->keys);
    int channel;
    if (dm_in_sysex(box->state, sizeof box->state).value)
        printf("end: a frame is open\n");
    for (channel = 0; channel < 16; channel++) {
        const dm_answer held = dm_held_count(box->keys, sizeof box->keys, (uint8_t)channel);
        if (held.value != 0)
            printf("end: %lu held on channel %d\n", (unsigned long)held.value, channel + 1);
    }
    if (first.found)
        printf("end: first held key %lu on channel %lu\n", (unsigned long)first.key, (unsigned long)first.channel + 1);
    printf("end: %lu bytes saved by running status\n", box->saved);
}

int main(int argc, char **argv)
{
    static struct box box;
    static uint8_t piece[LONGEST_PIECE];
    const long size = argc == 2 ? strtol(argv[1], NULL, 10) : 64;
    size_t got;
    if (argc > 2 || size < 1 || size > LONGEST_PIECE) {
        fprintf(stderr, "usage: host [SIZE]    (reads MIDI bytes on standard input in pieces of SIZE, 1 to %d, else 64, and prints what they say)\n",
                LONGEST_PIECE);
        return 2;
    }
    if (dm_capacity() != DM_MAX_SYSEX_LEN || dm_fresh(box.state, sizeof box.state).number != 0 ||
        dm_held_fresh(box.keys, sizeof box.keys).number != 0 || dm_running_fresh(box.running, sizeof box.running).number != 0) {
        fprintf(stderr, "host: the library does not fit this header\n");
        return 1;
    }
    while (!box.wrong && (got = fread(piece, 1, (size_t)size, stdin)) > 0)
        hand_in(&box, piece, got);
    at_the_end(&box);
    if (box.wrong || ferror(stdin)) {
        fprintf(stderr, "host: %s\n", box.wrong ? "an answer that the header excludes" : "standard input cannot be read");
        return 1;
    }
    return 0;
}
