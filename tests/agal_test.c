/*
 * The C interface from C: what each function answers, and that it leaves the rest of each buffer alone. Prints each difference and the
 * number of tests; the exit status is 0 only where there is no difference.
 */
#include "agal.h"

#include <stdio.h>
#include <string.h>

static int tests = 0;
static int failures = 0;

static void expect(int holds, const char *what, int line)
{
    tests++;
    if (!holds) {
        failures++;
        printf("line %d: %s\n", line, what);
    }
}

#define EXPECT(condition) expect((condition) ? 1 : 0, #condition, __LINE__)

/* An answer has these numbers. */
static int is(agal_answer a, unsigned number, size_t token, unsigned part, unsigned stage, size_t value)
{
    return a.number == number && a.token == token && a.part == part && a.stage == stage && a.value == value;
}

/* Bytes from some place on all have one value. */
static int all(const uint8_t *bytes, size_t from, size_t end, uint8_t value)
{
    size_t i;
    for (i = from; i < end; i++) {
        if (bytes[i] != value) {
            return 0;
        }
    }
    return 1;
}

/* A vertex program: m44 op0 va0 vc0, then mov v0 va1. */
static const uint8_t program[55] = {
    0xA0, 1, 0, 0, 0, 0xA1, 0,
    0x18, 0, 0, 0, 0, 0, 0x0F, 3, 0, 0, 0, 0xE4, 0, 0, 0, 0, 0, 0, 0, 0xE4, 1, 0, 0, 0,
    0, 0, 0, 0, 0, 0, 0x0F, 4, 1, 0, 0, 0xE4, 0, 0, 0, 0, 0, 0, 0, 0, 0, 0, 0, 0,
};

/* tex ft0.xyzw v1.xyzw fs2, cube, with a bias of -4. */
static const uint8_t tex[24] = {
    0x28, 0, 0, 0, 0, 0, 0x0F, 2, 1, 0, 0, 0xE4, 4, 0, 0, 0, 2, 0, 0xFC, 0, 5, 0x10, 0x10, 0x01,
};

static void test_check(void)
{
    uint8_t copy[55];
    EXPECT(is(agal_check(1, program, sizeof program), 0, 0, 0, AGAL_VERTEX, 2));
    EXPECT(is(agal_check(0, program, sizeof program), 1, 0, 0, 0, 0));
    EXPECT(is(agal_check(257, program, sizeof program), 1, 0, 0, 0, 0));
    EXPECT(is(agal_check(1, program, 54), 7, 0, 0, 0, 0));
    EXPECT(is(agal_check(1, program, 7), 0, 0, 0, AGAL_VERTEX, 0));
    EXPECT(is(agal_check(1, program, 0), 2, 0, 0, 0, 0));
    EXPECT(is(agal_check(1, NULL, 0), 2, 0, 0, 0, 0));
    memcpy(copy, program, sizeof copy);
    copy[6] = AGAL_FRAGMENT;
    EXPECT(is(agal_check(1, copy, sizeof copy), 17, 0, 2, 0, 0));
    copy[6] = AGAL_VERTEX;
    copy[31 + 12] = 2; /* mov v0 vt1, which nothing has written */
    EXPECT(is(agal_check(1, copy, sizeof copy), 21, 1, 2, 0, 0));
    copy[6] = AGAL_FRAGMENT;
    EXPECT(is(agal_check(3, copy, 7), 0, 0, 0, AGAL_FRAGMENT, 0));
}

static void test_decode(void)
{
    uint8_t flat[AGAL_FLAT_SIZE + 3];
    uint8_t wrong[25];
    const uint8_t *d = flat + AGAL_DESTINATION;
    const uint8_t *a = flat + AGAL_SOURCE1;
    const uint8_t *b = flat + AGAL_SOURCE2;
    memset(flat, 0xAA, sizeof flat);
    EXPECT(is(agal_decode(tex, sizeof tex, flat, AGAL_FLAT_SIZE - 1), 23, 0, 0, 0, 0));
    EXPECT(is(agal_decode(tex, sizeof tex, NULL, 0), 23, 0, 0, 0, 0));
    EXPECT(is(agal_decode(tex, 23, flat, sizeof flat), 24, 0, 0, 0, 0));
    EXPECT(is(agal_decode(NULL, 0, flat, sizeof flat), 24, 0, 0, 0, 0));
    memcpy(wrong, tex, sizeof tex);
    wrong[24] = 0;
    EXPECT(is(agal_decode(wrong, 25, flat, sizeof flat), 24, 0, 0, 0, 0));
    wrong[19] = 1;
    EXPECT(is(agal_decode(wrong, 24, flat, sizeof flat), 13, 0, 3, 0, 0));
    EXPECT(is(agal_decode(wrong, 24, flat, 0), 13, 0, 3, 0, 0));
    EXPECT(all(flat, 0, sizeof flat, 0xAA));
    EXPECT(is(agal_decode(tex, sizeof tex, flat, sizeof flat), 0, 0, 0, 0, AGAL_FLAT_SIZE));
    EXPECT(all(flat, AGAL_FLAT_SIZE, sizeof flat, 0xAA));
    EXPECT(flat[AGAL_OPCODE] == 0x28 && all(flat, 1, 4, 0));
    EXPECT(d[0] == AGAL_KIND_REGISTER && d[1] == 0 && d[2] == 0 && d[3] == 15 && d[4] == 2);
    EXPECT(a[0] == AGAL_KIND_DIRECT && a[1] == 1 && a[2] == 0 && a[3] == 0 && a[4] == 0xE4 && a[5] == 4);
    EXPECT(all(a, 6, 10, 0));
    EXPECT(b[0] == AGAL_KIND_SAMPLER && b[1] == 2 && b[2] == 0 && (int8_t)b[3] == -4 && b[4] == 5);
    EXPECT(b[5] == 1 && b[6] == 0 && b[7] == 1 && b[8] == 1 && b[9] == 0);
}

static void test_encode(void)
{
    uint8_t flat[AGAL_FLAT_SIZE];
    uint8_t out[AGAL_TOKEN_SIZE + 4];
    memset(out, 0xAA, sizeof out);
    EXPECT(agal_decode(tex, sizeof tex, flat, sizeof flat).number == 0);
    EXPECT(is(agal_encode(flat, sizeof flat, out, AGAL_TOKEN_SIZE - 1), 23, 0, 0, 0, 0));
    EXPECT(is(agal_encode(flat, sizeof flat, NULL, 0), 23, 0, 0, 0, 0));
    EXPECT(is(agal_encode(flat, AGAL_FLAT_SIZE - 1, out, sizeof out), 25, 0, 0, 0, 0));
    EXPECT(is(agal_encode(NULL, 0, out, sizeof out), 25, 0, 0, 0, 0));
    flat[AGAL_DESTINATION] = 2;
    EXPECT(is(agal_encode(flat, sizeof flat, out, sizeof out), 25, 0, 0, 0, 0));
    flat[AGAL_DESTINATION] = AGAL_KIND_REGISTER;
    flat[AGAL_SOURCE2] = 4;
    EXPECT(is(agal_encode(flat, sizeof flat, out, sizeof out), 25, 0, 0, 0, 0));
    flat[AGAL_SOURCE2] = AGAL_KIND_DIRECT;
    EXPECT(is(agal_encode(flat, sizeof flat, out, sizeof out), 25, 0, 0, 0, 0));
    EXPECT(all(out, 0, sizeof out, 0xAA));
    flat[AGAL_SOURCE2] = AGAL_KIND_SAMPLER;
    EXPECT(is(agal_encode(flat, sizeof flat, out, sizeof out), 0, 0, 0, 0, AGAL_TOKEN_SIZE));
    EXPECT(memcmp(out, tex, sizeof tex) == 0);
    EXPECT(all(out, AGAL_TOKEN_SIZE, sizeof out, 0xAA));
}

static void test_read(void)
{
    uint8_t flat[AGAL_FLAT_SIZE + 3];
    uint8_t copy[55];
    memset(flat, 0xAA, sizeof flat);
    EXPECT(is(agal_read(program, sizeof program, 0, flat, AGAL_FLAT_SIZE - 1), 23, 0, 0, 0, 0));
    EXPECT(is(agal_read(program, sizeof program, 1, flat, 0), 23, 1, 0, 0, 1));
    EXPECT(is(agal_read(program, sizeof program, 1, NULL, 0), 23, 1, 0, 0, 1));
    EXPECT(is(agal_read(program, sizeof program, 2, flat, sizeof flat), 24, 2, 0, 0, 2));
    EXPECT(is(agal_read(program, sizeof program, SIZE_MAX, flat, sizeof flat), 24, SIZE_MAX, 0, 0, SIZE_MAX));
    EXPECT(is(agal_read(NULL, 0, 0, flat, sizeof flat), 24, 0, 0, 0, 0));
    memcpy(copy, program, sizeof copy);
    copy[31] = 0x2B;
    EXPECT(is(agal_read(copy, sizeof copy, 1, flat, sizeof flat), 9, 1, 0, 0, 1));
    EXPECT(all(flat, 0, sizeof flat, 0xAA));
    EXPECT(is(agal_read(program, sizeof program, 0, flat, sizeof flat), 0, 0, 0, 0, 1));
    EXPECT(flat[AGAL_OPCODE] == 0x18 && flat[AGAL_SOURCE2] == AGAL_KIND_DIRECT);
    EXPECT(is(agal_read(program, sizeof program, 1, flat, sizeof flat), 0, 0, 0, 0, 2));
    EXPECT(flat[AGAL_OPCODE] == 0 && flat[AGAL_SOURCE2] == AGAL_KIND_UNUSED);
    EXPECT(all(flat, AGAL_FLAT_SIZE, sizeof flat, 0xAA));
}

static void test_line(void)
{
    static const char line[] = "    tex ft0.xyzw v1.xyzw fs2<cube,mipnearest,repeat,nearest,bias=-4>\n";
    const size_t length = sizeof line - 1;
    uint8_t flat[AGAL_FLAT_SIZE];
    uint8_t out[AGAL_LINE_MAX];
    memset(out, 0xAA, sizeof out);
    EXPECT(agal_decode(tex, sizeof tex, flat, sizeof flat).number == 0);
    EXPECT(is(agal_line(flat, sizeof flat, 2, 2, out, sizeof out), 25, 0, 0, 0, 0));
    EXPECT(is(agal_line(flat, sizeof flat, 256 + AGAL_FRAGMENT, 2, out, sizeof out), 25, 0, 0, 0, 0));
    EXPECT(is(agal_line(flat, sizeof flat, AGAL_FRAGMENT, 17, out, sizeof out), 25, 0, 0, 0, 0));
    EXPECT(is(agal_line(flat, sizeof flat, AGAL_FRAGMENT, 256, out, sizeof out), 25, 0, 0, 0, 0));
    EXPECT(is(agal_line(flat, AGAL_FLAT_SIZE - 1, AGAL_FRAGMENT, 2, out, sizeof out), 25, 0, 0, 0, 0));
    EXPECT(is(agal_line(NULL, 0, AGAL_FRAGMENT, 2, NULL, 0), 25, 0, 0, 0, 0));
    EXPECT(is(agal_line(flat, sizeof flat, AGAL_FRAGMENT, 2, out, length - 1), 23, 0, 0, 0, 0));
    EXPECT(is(agal_line(flat, sizeof flat, AGAL_FRAGMENT, 2, NULL, 0), 23, 0, 0, 0, 0));
    EXPECT(all(out, 0, sizeof out, 0xAA));
    EXPECT(is(agal_line(flat, sizeof flat, AGAL_FRAGMENT, 2, out, sizeof out), 0, 0, 0, 0, length));
    EXPECT(memcmp(out, line, length) == 0);
    EXPECT(all(out, length, sizeof out, 0xAA));
}

static void test_report(void)
{
    static const char text[] = "agal 1 vertex 2\nm44 op0.xyzw va0.xyzw vc0.xyzw\nmov v0.xyzw va1.xyzw\n";
    static const char none[] = "no edition\n";
    static uint8_t out[AGAL_REPORT_MAX];
    static uint8_t input[AGAL_INPUT_MAX + 1];
    const size_t length = sizeof text - 1;
    input[0] = '1';
    memcpy(input + 1, program, sizeof program);
    memset(out, 0xAA, sizeof out);
    EXPECT(is(agal_report(input, 1 + sizeof program, out, length - 1), 23, 0, 0, 0, 0));
    EXPECT(is(agal_report(input, 1 + sizeof program, NULL, 0), 23, 0, 0, 0, 0));
    EXPECT(is(agal_report(NULL, 0, NULL, 0), 23, 0, 0, 0, 0));
    EXPECT(all(out, 0, sizeof out, 0xAA));
    EXPECT(is(agal_report(input, 1 + sizeof program, out, sizeof out), 0, 0, 0, 0, length));
    EXPECT(memcmp(out, text, length) == 0);
    EXPECT(all(out, length, sizeof out, 0xAA));
    EXPECT(is(agal_report(NULL, 0, out, sizeof out), 0, 0, 0, 0, sizeof none - 1));
    EXPECT(memcmp(out, none, sizeof none - 1) == 0);
    EXPECT(agal_report(input, sizeof input, out, sizeof out).value == 15);
    EXPECT(memcmp(out, "input too long\n", 15) == 0);
}

static void test_bias(void)
{
    int b;
    for (b = -128; b <= 127; b++) {
        EXPECT(agal_bias((int8_t)b) * 8.0f == (float)b);
    }
    EXPECT(1.0f / agal_bias(0) > 0.0f);
}

int main(void)
{
    test_check();
    test_decode();
    test_encode();
    test_read();
    test_line();
    test_report();
    test_bias();
    printf("%d tests of the C interface, %d failed\n", tests, failures);
    return failures == 0 ? 0 : 1;
}
