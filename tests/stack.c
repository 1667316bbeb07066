/*
 * How much stack each function takes: it is called on a painted stack, and the paint that is left tells. The exit status is 0 only where
 * what include/agal.h says is enough.
 */
#define _GNU_SOURCE
#include "agal.h"

#include <pthread.h>
#include <stdio.h>
#include <stdlib.h>
#include <string.h>

#define SIZE (1u << 20)
#define PAINT 0xA5

/* Edition 2: a token that is passed at a glance; an opener with an indexed source, which is judged rule by rule; els and eif. */
static const uint8_t input[104] = {
    '2', 0xA0, 1, 0, 0, 0, 0xA1, 0,
    /* mov vt0.xyzw vc[va0.x+3].xyzw */
    0, 0, 0, 0, 0, 0, 0x0F, 2, 0, 0, 3, 0xE4, 1, 0, 0, 0x80, 0, 0, 0, 0, 0, 0, 0, 0,
    /* ife vc[va0.x+3].xyzw vt0.xyzw */
    0x1C, 0, 0, 0, 0, 0, 0, 0, 0, 0, 3, 0xE4, 1, 0, 0, 0x80, 0, 0, 0, 0xE4, 2, 0, 0, 0,
    /* els, eif */
    0x20, 0, 0, 0, 0, 0, 0, 0, 0, 0, 0, 0, 0, 0, 0, 0, 0, 0, 0, 0, 0, 0, 0, 0,
    0x21, 0, 0, 0, 0, 0, 0, 0, 0, 0, 0, 0, 0, 0, 0, 0, 0, 0, 0, 0, 0, 0, 0, 0,
};

static void *nothing(void *unused)
{
    return unused;
}

static void *check(void *unused)
{
    return agal_check(2, input + 1, sizeof input - 1).number == 0 ? unused : NULL;
}

static void *report(void *unused)
{
    static uint8_t out[AGAL_REPORT_MAX];
    /* Straight to the buffer, and with the text measured before. */
    int right = agal_report(input, sizeof input, out, sizeof out).number == 0;
    right = agal_report(input, sizeof input, out, sizeof out - 1).number == 0 && right;
    return right ? unused : NULL;
}

static void *other(void *unused)
{
    uint8_t flat[AGAL_FLAT_SIZE];
    uint8_t out[AGAL_LINE_MAX];
    agal_decode(input + 8, AGAL_TOKEN_SIZE, flat, sizeof flat);
    agal_read(input + 1, sizeof input - 1, 0, flat, sizeof flat);
    agal_encode(flat, sizeof flat, out, sizeof out);
    agal_line(flat, sizeof flat, AGAL_VERTEX, 16, out, sizeof out);
    return unused;
}

/* Bytes of stack that a thread took, its own start included. */
static size_t taken(void *(*run)(void *))
{
    void *memory = NULL;
    uint8_t *stack;
    size_t left = 0;
    pthread_attr_t attributes;
    pthread_t thread;
    if (posix_memalign(&memory, 4096, SIZE) != 0) {
        exit(2);
    }
    stack = memory;
    memset(stack, PAINT, SIZE);
    pthread_attr_init(&attributes);
    pthread_attr_setstack(&attributes, stack, SIZE);
    if (pthread_create(&thread, &attributes, run, memory) != 0 || pthread_join(thread, NULL) != 0) {
        exit(2);
    }
    while (left < SIZE && stack[left] == PAINT) {
        left++;
    }
    free(memory);
    return SIZE - left;
}

static int within(const char *name, void *(*run)(void *), size_t enough)
{
    size_t bytes = taken(run) - taken(nothing);
    printf("%s: %lu bytes of stack\n", name, (unsigned long)bytes);
    return bytes < enough;
}

int main(void)
{
    /* The deepest first, since the loader may take some in the first call. */
    int right = within("agal_report", report, AGAL_REPORT_STACK);
    right = within("agal_check", check, AGAL_CHECK_STACK) && right;
    right = within("agal_decode, agal_read, agal_encode, agal_line", other, 4096) && right;
    return right ? 0 : 1;
}
