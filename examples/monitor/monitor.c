/*
 * A monitor: reads a saved form from the file named on the command line and prints, for each link and wavelength, which
 * circuit runs clockwise and which counterclockwise.
 */
#include <inttypes.h>
#include <stdio.h>

#include "ring_monitor.h"

/* One byte more than a form can have: what is left unread of a longer file changes no answer. */
enum { FORM_ROOM = RING_FORM_MOST + 1 };

static void print_circuit(const char *way, uint64_t answer)
{
    if (answer == RING_NONE) {
        printf(" %s none", way);
    } else {
        printf(" %s %" PRIu64, way, answer);
    }
}

/* Whether all that was printed is written: a full disk is seen only here. */
static int all_written(void)
{
    int failed = ferror(stdout);

    return fclose(stdout) == 0 && !failed;
}

int main(int argc, char **argv)
{
    static uint8_t form[FORM_ROOM];
    uint64_t answer = RING_NONE;
    uint64_t link;
    uint64_t wavelength;
    size_t length;
    int status = 0;
    FILE *file;

    if (argc != 2) {
        fprintf(stderr, "usage: %s FORM\n", argv[0]);
        return 2;
    }
    file = fopen(argv[1], "rb");
    if (file == NULL) {
        perror(argv[1]);
        return 2;
    }
    length = fread(form, 1, sizeof form, file);
    if (ferror(file)) {
        perror(argv[1]);
        fclose(file);
        return 2;
    }
    fclose(file);

    for (link = 1;; link++) {
        for (wavelength = 0;; wavelength++) {
            answer = ring_link(form, length, link, wavelength, RING_CLOCKWISE);
            if (RING_IS_REFUSAL(answer)) {
                break;
            }
            printf("link %" PRIu64 " wavelength %" PRIu64, link, wavelength);
            print_circuit("clockwise", answer);
            print_circuit("counterclockwise", ring_link(form, length, link, wavelength, RING_COUNTERCLOCKWISE));
            printf("\n");
        }
        if (answer != RING_NONE + RING_NO_WAVELENGTH) {
            break;
        }
    }
    if (answer != RING_NONE + RING_NO_LINK) {
        printf("form refused %d\n", RING_REFUSAL(answer));
        status = 1;
    }
    if (!all_written()) {
        fputs("standard output: not all was written\n", stderr);
        status = 1;
    }
    return status;
}
