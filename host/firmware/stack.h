/*
 * How much stack a function takes: it runs in a thread whose stack is marked before, and the marks that are gone are counted.
 */
#ifndef STACK_H
#define STACK_H

#include <pthread.h>
#include <stddef.h>
#include <stdint.h>
#include <string.h>

enum { STACK_LEN = 256 * 1024, STACK_MARK = 0xA5 };

/* Runs body(argument) on a marked stack. Answers how many bytes of it were used, or 0 where the thread could not be run or answered
   something else than its argument. */
static inline size_t stack_used(void *(*body)(void *), void *argument)
{
    static union {
        uint8_t bytes[STACK_LEN];
        long double aligned;
    } stack;
    pthread_attr_t attributes;
    pthread_t thread;
    void *result = NULL;
    size_t untouched = 0;
    int ran;

    memset(stack.bytes, STACK_MARK, STACK_LEN);
    ran = pthread_attr_init(&attributes) == 0 && pthread_attr_setstack(&attributes, stack.bytes, STACK_LEN) == 0 &&
          pthread_create(&thread, &attributes, body, argument) == 0 && pthread_join(thread, &result) == 0 && result == argument;
    pthread_attr_destroy(&attributes);
    while (untouched < STACK_LEN && stack.bytes[untouched] == STACK_MARK)
        untouched++;
    return ran ? STACK_LEN - untouched : 0;
}

#endif
