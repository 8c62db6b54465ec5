/*
 * How many bytes of stack the calls of dm_feed were seen to take: MIDI bytes on standard input are handed in, in pieces of a size, on a stack of
 * this program's own that is painted ahead of it, and the paint that is left is looked at. The same is done with a function in dm_feed's place
 * that takes its return address alone, and what that leaves is taken off. Bytes that a call reserves and never writes are not seen, nor is a byte
 * that it writes as it was painted.
 */
#define _XOPEN_SOURCE 700
#include "cobnutdrill.h"

#include <stdio.h>
#include <stdlib.h>
#include <string.h>
#include <ucontext.h>

enum { STACK = 1 << 18, PAINT = 0xA5, LONGEST = 1 << 20, RETURN_ADDRESS = 8 };

typedef dm_fed_answer feed(uint8_t *, size_t, uint8_t *, size_t, const uint8_t *, size_t);

static uint8_t stack[STACK], state[DM_STATE_LEN], store[DM_MAX_SYSEX_LEN], bytes[LONGEST];
static size_t count, piece;
static int stuck;
static feed *volatile call;
static ucontext_t back, there;

/* Stands in dm_feed's place: uses every byte, reports nothing, and takes no stack but its return address. */
static dm_fed_answer nothing(uint8_t *a, size_t a_len, uint8_t *b, size_t b_len, const uint8_t *c, size_t c_len)
{
    dm_fed_answer answer = {0, c_len, 0, 0, 0, 0, 0};
    (void)a, (void)a_len, (void)b, (void)b_len, (void)c;
    return answer;
}

/* Hands all bytes in, each piece until it is used up. */
static void hand_in(void)
{
    size_t at = 0;
    size_t left = piece < count ? piece : count;
    while (at < count) {
        dm_fed_answer answer = call(state, sizeof state, store, sizeof store, bytes + at, left);
        if (answer.number != 0 || answer.used == 0 || answer.used > left) {
            stuck = 1;
            return;
        }
        at += (size_t)answer.used;
        left -= (size_t)answer.used;
        if (left == 0)
            left = piece < count - at ? piece : count - at;
    }
}

/* How far down the painted stack was written. */
static size_t written(feed *one)
{
    size_t at = 0;
    memset(stack, PAINT, sizeof stack);
    memset(state, 0, sizeof state);
    if (getcontext(&there) != 0)
        return 0;
    there.uc_stack.ss_sp = stack;
    there.uc_stack.ss_size = sizeof stack;
    there.uc_link = &back;
    makecontext(&there, hand_in, 0);
    call = one;
    if (swapcontext(&back, &there) != 0)
        return 0;
    while (at < sizeof stack && stack[at] == PAINT)
        at++;
    return sizeof stack - at;
}

int main(int argc, char **argv)
{
    char *end = NULL;
    size_t with, without;
    piece = argc == 2 ? strtoul(argv[1], &end, 10) : 0;
    if (piece == 0 || piece > LONGEST || *end != '\0') {
        fprintf(stderr, "usage: stack-seen SIZE    (bytes on standard input, in pieces of SIZE bytes; prints how many bytes of stack dm_feed took)\n");
        return 2;
    }
    count = fread(bytes, 1, sizeof bytes, stdin);
    with = written(dm_feed);
    without = written(nothing);
    if (count == 0 || stuck || without == 0 || with < without || with == sizeof stack) {
        fprintf(stderr, "stack-seen: nothing was measured\n");
        return 1;
    }
    printf("%lu\n", (unsigned long)(with - without + RETURN_ADDRESS));
    return 0;
}
