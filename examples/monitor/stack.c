/*
 * The stack that a call takes: the question is asked in a thread whose stack was filled with a pattern, and the pattern is
 * looked for afterwards. Prints the bytes used beyond those of a thread that asks nothing; exits 0 where these are at most
 * RING_LINK_STACK.
 */
#define _GNU_SOURCE
#include <pthread.h>
#include <stdio.h>
#include <stdlib.h>
#include <string.h>

#include "ring_monitor.h"

enum { STACK = 1 << 20, PATTERN = 0xA5 };

static uint8_t form[RING_FORM_MOST + 1];
static size_t length;
static uint64_t answer;

static void *ask(void *unused)
{
    answer = ring_link(form, length, 1, 0, RING_CLOCKWISE);
    return unused;
}

static void *ask_nothing(void *unused)
{
    return unused;
}

static size_t stack_used(void *(*work)(void *))
{
    pthread_attr_t attributes;
    pthread_t thread;
    unsigned char *stack;
    size_t i = 0;

    if (posix_memalign((void **) &stack, 4096, STACK) != 0) {
        exit(2);
    }
    memset(stack, PATTERN, STACK);
    if (pthread_attr_init(&attributes) != 0 || pthread_attr_setstack(&attributes, stack, STACK) != 0
        || pthread_create(&thread, &attributes, work, NULL) != 0 || pthread_join(thread, NULL) != 0) {
        exit(2);
    }
    while (i < STACK && stack[i] == PATTERN) {
        i++;
    }
    free(stack);
    return STACK - i;
}

int main(int argc, char **argv)
{
    FILE *file = argc == 2 ? fopen(argv[1], "rb") : NULL;
    size_t used;

    if (file == NULL) {
        fprintf(stderr, "usage: %s FORM\n", argv[0]);
        return 2;
    }
    length = fread(form, 1, sizeof form, file);
    fclose(file);
    used = stack_used(ask) - stack_used(ask_nothing);
    printf("a call took %zu bytes of stack\n", used);
    return used <= RING_LINK_STACK ? 0 : 1;
}
