/* The stack that a call wants. Every call is made on a thread whose stack is painted; how far below the thread's own frame the paint is gone is
   the depth of the call, this header's function included. States are grown at random, and some are damaged; each call is made on RUNS of them.
   Prints the deepest of each call and of all, and fails where the header says less. */
#define _POSIX_C_SOURCE 200809L
#include <pthread.h>
#include "calls.h"

#define RUNS 150
#define STACK 262144

static struct bench grown[RUNS];
static uint64_t stack[STACK / 8];
static uint64_t paint;

struct run {
    const struct call *call;
    struct bench *bench;
    size_t depth;
};

/* On the painted stack: the call, and at once the first place from below that is not as it was painted. */
static void *make(void *argument) {
    struct run *run = (struct run *)argument;
    volatile uint64_t here = 0;
    size_t place = 0;
    (void)run->call->make(run->bench);
    while (place < STACK / 8 && ((volatile uint64_t *)stack)[place] == paint) place++;
    run->depth = (size_t)((uintptr_t)&here - (uintptr_t)&stack[place]);
    return NULL;
}

static size_t depth_of(const struct call *call, struct bench *bench) {
    struct run run = {call, bench, 0};
    pthread_attr_t attributes;
    pthread_t thread;
    for (size_t i = 0; i < STACK / 8; i++) stack[i] = paint;
    if (pthread_attr_init(&attributes) != 0 || pthread_attr_setstack(&attributes, stack, STACK) != 0 ||
        pthread_create(&thread, &attributes, make, &run) != 0 || pthread_join(thread, NULL) != 0) {
        printf("stack: no thread can be made\n");
        exit(1);
    }
    pthread_attr_destroy(&attributes);
    return run.depth;
}

/* What the header says of a call. */
static size_t said(const struct call *call) {
    return call->make == call_remove_claimed_children || call->make == call_process_parent_annce ? WARPTEASEL_STACK : WARPTEASEL_STACK / 4;
}

int main(void) {
    static struct bench bench;
    int wrong = 0;
    size_t deepest = 0;
    for (size_t i = 0; i < RUNS; i++) {
        grow(&grown[i]);
        if (once_in(10)) grown[i].routing.routes = grown[i].neighbors.count = 65;
    }
    for (size_t i = 0; i < CALLS; i++) {
        size_t most = 0;
        for (size_t run = 0; run < RUNS; run++) {
            size_t depth;
            memcpy(&bench, &grown[run], sizeof bench);
            draw_arguments();
            draw_header(&bench.header);
            paint = draw();
            depth = depth_of(&calls[i], &bench);
            if (depth > most) most = depth;
        }
        printf("%6zu %s%s\n", most, calls[i].name, most < said(&calls[i]) ? "" : ": more than the header says");
        if (most >= said(&calls[i])) wrong = 1;
        if (most > deepest) deepest = most;
    }
    printf("stack: at most %zu bytes for a call, and the header says less than %d\n", deepest, WARPTEASEL_STACK);
    return wrong;
}
