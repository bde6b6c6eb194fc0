/* How deep a call goes: it runs on a stack of its own that was painted before, and what is no longer paint was used. */
#define _GNU_SOURCE
#include <pthread.h>
#include <stddef.h>
#include <stdlib.h>
#include <string.h>

enum { SIZE = 4 << 20, PAINT = 0xA5 };

struct call {
    void (*run)(void *);
    void *with;
};

static void *entered(void *argument)
{
    struct call *call = argument;
    call->run(call->with);
    return NULL;
}

static void nothing(void *with)
{
    (void)with;
}

/* The bytes of the painted stack that were used, the thread's own among them; 0 where no thread can be had. */
static size_t used(void (*run)(void *), void *with)
{
    unsigned char *stack = NULL;
    pthread_attr_t how;
    pthread_t thread;
    struct call call = {run, with};
    size_t untouched = 0;

    if (posix_memalign((void **)&stack, 4096, SIZE))
        return 0;
    memset(stack, PAINT, SIZE);
    pthread_attr_init(&how);
    if (pthread_attr_setstack(&how, stack, SIZE) || pthread_create(&thread, &how, entered, &call)) {
        free(stack);
        return 0;
    }
    pthread_join(thread, NULL);
    pthread_attr_destroy(&how);
    while (untouched < SIZE && stack[untouched] == PAINT)
        untouched++;
    free(stack);
    return SIZE - untouched;
}

/* What the call used beyond what a call of nothing uses. */
size_t stack_used(void (*run)(void *), void *with)
{
    size_t whole = used(run, with);
    size_t least = used(nothing, NULL);
    return whole > least ? whole - least : 0;
}
