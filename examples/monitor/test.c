/*
 * Questions with known answers: good forms, cut and damaged ones, no bytes at all, and numbers too wide to be good.
 * Prints each answer that is wrong; exits 0 where none is.
 */
#include <inttypes.h>
#include <stdio.h>
#include <stdlib.h>
#include <string.h>

#include "ring_monitor.h"

/* The ring at the end of document 01's script: 5 nodes, a port at each, wavelengths 0 and 1. */
static const uint8_t script_form[] = {
    5, 1, 1, 1, 1, 1,
    0x0b, 0, 0, 0, 0, 0, 0, 0, 0, 0, 0, 0, 0, 0, 0, 0,
    2, 0, 0, 0, 12, 2, 3, 0, 0, 0, 14, 3, 2,  /* place 0: 12 from 2 to 3, 14 from 3 to 2 */
    2, 0, 0, 0, 11, 1, 5, 0, 0, 0, 16, 4, 1,  /* place 1: 11 from 1 to 5, 16 from 4 to 1 */
    0, 0, 0, 0, 15, 5, 4                      /* place 3: 15 from 5 to 4 */
};

/* The same circuits as document 01 alone, without E1 and E6, places them. */
static const uint8_t before_form[] = {
    5, 1, 1, 1, 1, 1,
    0x0f, 0, 0, 0, 0, 0, 0, 0, 0, 0, 0, 0, 0, 0, 0, 0,
    0, 0, 0, 0, 12, 2, 3,                     /* place 0: 12 from 2 to 3 */
    2, 0, 0, 0, 11, 1, 5, 0, 0, 0, 16, 4, 1,  /* place 1: 11 from 1 to 5, 16 from 4 to 1 */
    0, 0, 0, 0, 15, 5, 4,                     /* place 2: 15 from 5 to 4 */
    0, 0, 0, 0, 14, 3, 2                      /* place 3: 14 from 3 to 2 */
};

/* 3 nodes, two ports at each; the lowest number, with a remark, and the highest share place 0. */
static const uint8_t edge_form[] = {
    3, 2, 2, 2,
    0x01, 0, 0, 0, 0, 0, 0, 0, 0, 0, 0, 0, 0, 0, 0, 0,
    3, 0, 0, 0, 0, 1, 2, 0, 7, 0xff, 0xff, 0xff, 0xff, 2, 3
};

/* The same, and each of the two has an account. */
static const uint8_t billed_form[] = {
    3, 2, 2, 2,
    0x01, 0, 0, 0, 0, 0, 0, 0, 0, 0, 0, 0, 0, 0, 0, 0,
    0x1b, 0, 0, 0, 0, 1, 2, 0, 7, 1, 0, 0, 0, 0xff, 0xff, 0xff, 0xff, 2, 3, 0, 0, 0, 1
};

/* 3 nodes with no port: there is no wavelength. */
static const uint8_t dark_form[] = { 3, 0, 0, 0, 0, 0, 0, 0, 0, 0, 0, 0, 0, 0, 0, 0, 0, 0, 0, 0 };

static int wrong;

static void expect(const char *what, uint64_t answer, uint64_t right)
{
    if (answer != right) {
        printf("%s: %" PRIu64 ", and not %" PRIu64 "\n", what, answer, right);
        wrong++;
    }
}

/* Each link, wavelength and direction of a ring of 5 nodes with two wavelengths. */
static void every_link(const char *ring, const uint8_t *form, size_t length, const uint64_t right[5][2][2])
{
    char what[96];
    int l, w, d;

    for (l = 0; l < 5; l++) {
        for (w = 0; w < 2; w++) {
            for (d = 0; d < 2; d++) {
                snprintf(what, sizeof what, "%s: link %d wavelength %d direction %d", ring, l + 1, w, d);
                expect(what, ring_link(form, length, (uint64_t) l + 1, (uint64_t) w, (uint64_t) d), right[l][w][d]);
            }
        }
    }
}

static void rings(void)
{
    const uint64_t none = RING_NONE;
    const uint64_t script[5][2][2] = {
        { { 14, 16 }, { none, none } },
        { { 12, 16 }, { none, none } },
        { { 14, 16 }, { none, none } },
        { { 14, none }, { none, 15 } },
        { { 14, 11 }, { none, none } }
    };
    const uint64_t before[5][2][2] = {
        { { none, 16 }, { 15, none } },
        { { 12, 16 }, { 15, 14 } },
        { { none, 16 }, { 15, none } },
        { { none, none }, { none, none } },
        { { none, 11 }, { 15, none } }
    };

    every_link("script", script_form, sizeof script_form, script);
    every_link("before", before_form, sizeof before_form, before);
}

/* What the numbers of a question are refused for, in which order; nothing wraps into a good number. */
static void numbers(void)
{
    const uint64_t wide[] = { UINT64_C(256), UINT64_C(65536), UINT64_C(4294967296), UINT64_MAX - 255 };
    size_t i;

    expect("link 0", ring_link(script_form, sizeof script_form, 0, 0, 0), RING_NONE + RING_NO_LINK);
    expect("link 6", ring_link(script_form, sizeof script_form, 6, 0, 0), RING_NONE + RING_NO_LINK);
    expect("wavelength 2", ring_link(script_form, sizeof script_form, 5, 2, 0), RING_NONE + RING_NO_WAVELENGTH);
    expect("direction 2", ring_link(script_form, sizeof script_form, 5, 1, 2), RING_NONE + RING_NO_DIRECTION);
    expect("all bad", ring_link(script_form, sizeof script_form, 6, 2, 2), RING_NONE + RING_NO_LINK);
    expect("two bad", ring_link(script_form, sizeof script_form, 5, 2, 2), RING_NONE + RING_NO_WAVELENGTH);
    expect("no wavelength at all", ring_link(dark_form, sizeof dark_form, 1, 0, 0), RING_NONE + RING_NO_WAVELENGTH);
    for (i = 0; i < sizeof wide / sizeof wide[0]; i++) {
        expect("wide link", ring_link(script_form, sizeof script_form, wide[i] + 1, 0, 0), RING_NONE + RING_NO_LINK);
        expect("wide wavelength", ring_link(script_form, sizeof script_form, 1, wide[i], 0), RING_NONE + RING_NO_WAVELENGTH);
        expect("wide direction", ring_link(script_form, sizeof script_form, 1, 0, wide[i] + 1), RING_NONE + RING_NO_DIRECTION);
    }
}

/* The answer for a copy of a form in which one byte is another, asked for a link that is not there: the form's own refusal comes first. */
static uint64_t damaged(const uint8_t *form, size_t length, size_t at, uint8_t byte)
{
    uint8_t copy[64];

    memcpy(copy, form, length);
    copy[at] = byte;
    return ring_link(copy, length, 0, 0, 0);
}

/* Each beginning of a form, in a copy on the heap, so that a read past its end is found by a checker of memory. */
static void cuts(const char *what, const uint8_t *form, size_t whole)
{
    size_t length;

    for (length = 0; length < whole; length++) {
        uint8_t *cut = malloc(length + 1);
        if (cut == NULL) {
            abort();
        }
        memcpy(cut + 1, form, length);
        expect(what, ring_link(cut + 1, length, 1, 0, 0), RING_NONE + RING_CUT_SHORT);
        free(cut);
    }
}

static void forms(void)
{
    uint8_t longer[sizeof script_form + 1] = { 0 };

    expect("number 0", ring_link(edge_form, sizeof edge_form, 1, 0, 0), 0);
    expect("highest number", ring_link(edge_form, sizeof edge_form, 2, 0, 0), UINT64_C(4294967295));
    expect("neither", ring_link(edge_form, sizeof edge_form, 3, 0, 0), RING_NONE);
    expect("number 0, billed", ring_link(billed_form, sizeof billed_form, 1, 0, 0), 0);
    expect("highest number, billed", ring_link(billed_form, sizeof billed_form, 2, 0, 0), UINT64_C(4294967295));
    expect("neither, billed", ring_link(billed_form, sizeof billed_form, 3, 0, 0), RING_NONE);

    expect("no bytes", ring_link(NULL, 0, 1, 0, 0), RING_NONE + RING_CUT_SHORT);
    expect("no bytes of some", ring_link(script_form, 0, 1, 0, 0), RING_NONE + RING_CUT_SHORT);
    cuts("cut short", script_form, sizeof script_form);
    cuts("cut short, billed", billed_form, sizeof billed_form);
    memcpy(longer, script_form, sizeof script_form);
    expect("trailing byte", ring_link(longer, sizeof longer, 1, 0, 0), RING_NONE + RING_TRAILING_BYTES);

    expect("2 nodes", damaged(script_form, sizeof script_form, 0, 2), RING_NONE + RING_NODE_COUNT);
    expect("65 nodes", damaged(script_form, sizeof script_form, 0, 65), RING_NONE + RING_NODE_COUNT);
    expect("65 ports", damaged(script_form, sizeof script_form, 1, 65), RING_NONE + RING_PORT_COUNT);
    expect("place 4 lit", damaged(script_form, sizeof script_form, 6, 0x1b), RING_NONE + RING_BAD_FIELD);
    expect("field map bit 5", damaged(script_form, sizeof script_form, 22, 32), RING_NONE + RING_BAD_FIELD);
    expect("field map bit 6", damaged(script_form, sizeof script_form, 22, 64), RING_NONE + RING_BAD_FIELD);
    expect("field map bit 7", damaged(script_form, sizeof script_form, 22, 128), RING_NONE + RING_BAD_FIELD);
    expect("remark of a second that is not there", damaged(script_form, sizeof script_form, 22, 4), RING_NONE + RING_BAD_FIELD);
    expect("account of a second that is not there", damaged(script_form, sizeof script_form, 22, 16), RING_NONE + RING_BAD_FIELD);
    expect("remark of 0", damaged(edge_form, sizeof edge_form, 28, 0), RING_NONE + RING_BAD_FIELD);
    expect("first account of 0", damaged(billed_form, sizeof billed_form, 29, 0), RING_NONE + RING_BAD_FIELD);
    expect("second account of 0", damaged(billed_form, sizeof billed_form, 42, 0), RING_NONE + RING_BAD_FIELD);
    expect("to itself", damaged(script_form, sizeof script_form, 28, 2), RING_NONE + RING_BROKEN_FORM);
    expect("off the ring", damaged(script_form, sizeof script_form, 28, 6), RING_NONE + RING_BROKEN_FORM);
    expect("a number twice", damaged(script_form, sizeof script_form, 52, 14), RING_NONE + RING_BROKEN_FORM);
    expect("higher number first", damaged(script_form, sizeof script_form, 26, 17), RING_NONE + RING_BROKEN_FORM);
    expect("two that cannot share there", damaged(script_form, sizeof script_form, 6, 0x0d), RING_NONE + RING_BROKEN_FORM);
}

/* More than 192 ports: 4 nodes with 64, 64, 64 and 1. */
static void many_ports(void)
{
    static const uint8_t form[] = { 4, 64, 64, 64, 1, 0, 0, 0, 0, 0, 0, 0, 0, 0, 0, 0, 0, 0, 0, 0, 0 };

    expect("193 ports", ring_link(form, sizeof form, 1, 0, 0), RING_NONE + RING_PORT_SUM);
    expect("192 ports", damaged(form, sizeof form, 4, 0), RING_NONE + RING_NO_LINK);
}

/* The bytes of a circuit with a remark and an account, both the highest that there are. */
static uint8_t *put_circuit(uint8_t *at, int number, int source, int destination)
{
    const uint8_t bytes[] = { 0, 0, (uint8_t) (number / 256), (uint8_t) (number % 256), (uint8_t) source, (uint8_t) destination };

    memcpy(at, bytes, sizeof bytes);
    memset(at + sizeof bytes, 0xff, 6);
    return at + sizeof bytes + 6;
}

/*
 * The longest form: 64 nodes with three ports, 192 circuits. On each wavelength a circuit to the next node shares clockwise
 * with its return, and one to the next node but one stands counterclockwise, alone.
 */
static void longest(void)
{
    static uint8_t form[RING_FORM_MOST + 1];
    uint8_t *at = form;
    int w;

    *at++ = 64;
    memset(at, 3, 64);
    memset(at + 64, 0xff, 16);
    at += 80;
    for (w = 0; w < 64; w++) {
        int next = (w + 1) % 64 + 1;

        *at++ = 0x1f;
        at = put_circuit(at, 3 * w, w + 1, next);
        at = put_circuit(at, 3 * w + 1, next, w + 1);
        *at++ = 0x09;
        at = put_circuit(at, 3 * w + 2, w + 1, (w + 2) % 64 + 1);
    }
    expect("longest form, its length", (uint64_t) (at - form), RING_FORM_MOST);
    expect("longest form, the last to the next node", ring_link(form, RING_FORM_MOST, 64, 63, 0), 189);
    expect("longest form, its return", ring_link(form, RING_FORM_MOST, 63, 63, 0), 190);
    expect("longest form, the last of all", ring_link(form, RING_FORM_MOST, 63, 63, 1), 191);
    expect("longest form, one byte short", ring_link(form, RING_FORM_MOST - 1, 1, 0, 0), RING_NONE + RING_CUT_SHORT);
    expect("longest form, one byte more", ring_link(form, RING_FORM_MOST + 1, 1, 0, 0), RING_NONE + RING_TRAILING_BYTES);
}

int main(void)
{
    rings();
    numbers();
    forms();
    many_ports();
    longest();
    if (wrong != 0) {
        printf("%d wrong\n", wrong);
        return 1;
    }
    return 0;
}
