/*
 * The one-link question of the ring controller, for monitors written in C or C++: which circuit runs over a link, on a
 * wavelength, in a direction.
 *
 * The function is proved to give what docs/RULES.md, "Load and link", says, for every sequence of bytes and every three
 * numbers. `tools/archive` proves it and writes target/staticlib/libmonitor.a, for x86-64 Linux; a monitor is compiled with
 * -I include and linked with that archive and nothing else. examples/monitor has one.
 */
#ifndef RING_MONITOR_H
#define RING_MONITOR_H

#include <stddef.h>
#include <stdint.h>

#ifdef __cplusplus
extern "C" {
#endif

/*
 * The version of this interface: it changes when a form, an answer or a refusal number does. Every form that version 1
 * or 2 answers for has the same answers in version 3. A ring saved by the controller may have a circuit and its return
 * at a counterclockwise place, which an archive of version 1 refuses by 33, and circuits with accounts, which one of
 * version 1 or 2 refuses by 31: link monitors anew first.
 */
#define RING_MONITOR_VERSION 3

/* The most bytes that a saved form has. A longer sequence of bytes is refused like any other that is no form. */
#define RING_FORM_MOST 2513

/* The most stack that a call takes, in bytes, with room to spare; it allocates nothing else. */
#define RING_LINK_STACK 65536

/* The directions. */
#define RING_CLOCKWISE UINT64_C(0)
#define RING_COUNTERCLOCKWISE UINT64_C(1)

/*
 * The answer where no circuit runs there. A smaller answer is the number of the circuit, 0 included; a larger one is
 * this plus the number of the refusal.
 */
#define RING_NONE UINT64_C(4294967296)

/* Whether an answer is a refusal, and which. */
#define RING_IS_REFUSAL(answer) ((answer) > RING_NONE)
#define RING_REFUSAL(answer) ((int) ((answer) - RING_NONE))

/* The refusals and their numbers: those of the saved form first, then those of the question. */
enum ring_refusal {
    RING_NODE_COUNT = 1,      /* the number of nodes is not 3 to 64 */
    RING_PORT_COUNT = 2,      /* a node has more than 64 ports */
    RING_PORT_SUM = 3,        /* the port counts add up to more than 192 */
    RING_CUT_SHORT = 30,      /* a field ends early, or there are no bytes */
    RING_BAD_FIELD = 31,      /* a bit that may not be set, or a written remark or account of 0 */
    RING_TRAILING_BYTES = 32, /* bytes after the last record */
    RING_BROKEN_FORM = 33,    /* a ring rule is broken */
    RING_NO_LINK = 10,        /* the link is not 1 to the number of nodes */
    RING_NO_WAVELENGTH = 16,  /* the wavelength is not below the number of wavelengths */
    RING_NO_DIRECTION = 17    /* the direction is neither 0 nor 1 */
};

/*
 * The circuit on a link (from 1), on a wavelength (from 0), in a direction, of a ring that is given by its saved form;
 * RING_NONE; or RING_NONE plus the first refusal, the form's own before those of the link, the wavelength and the
 * direction, in that order.
 *
 * `form` points to `length` bytes, which no other thread writes during the call; it may be NULL where `length` is 0.
 * The bytes are read and not kept. The call allocates nothing, keeps no state and may be made from several threads. It
 * reads the whole form and tests every ring rule each time: some 4 to 8 microseconds for the longest form
 * (docs/PERFORMANCE.md).
 */
uint64_t ring_link(const uint8_t *form, size_t length, uint64_t link, uint64_t wavelength, uint64_t direction);

#ifdef __cplusplus
}
#endif

#endif
