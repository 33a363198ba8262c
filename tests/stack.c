/*
 * Measures the stack that a call from C uses: the call runs in a thread whose stack was filled with one byte, and what still has it was not used.
 *
 *   cc -O1 -Iinclude tests/stack.c crates/vatcowslip_c/out/libvatcowslip_c.a -lpthread -o stack && ./stack SCRIPT
 */
#define _GNU_SOURCE
#include <pthread.h>
#include <stdio.h>
#include <string.h>
#include <sys/mman.h>
#include "vatcowslip.h"

enum { FILL = 0xAB, STACK_BYTES = 8 << 20 };

static uint8_t script[40000], output[70000];
static size_t script_length;

static void *call(void *length) {
    *(int64_t *)length = vatcowslip_list(script, script_length, output, sizeof output);
    return NULL;
}

int main(int count, char **arguments) {
    FILE *file = count == 2 ? fopen(arguments[1], "rb") : NULL;
    if (file == NULL) {
        fprintf(stderr, "stack SCRIPT\n");
        return 1;
    }
    script_length = fread(script, 1, sizeof script, file);
    fclose(file);

    uint8_t *stack = mmap(NULL, STACK_BYTES, PROT_READ | PROT_WRITE, MAP_PRIVATE | MAP_ANONYMOUS, -1, 0);
    if (stack == MAP_FAILED) {
        fprintf(stderr, "no memory\n");
        return 1;
    }
    memset(stack, FILL, STACK_BYTES);

    pthread_attr_t attributes;
    pthread_t thread;
    int64_t length;
    pthread_attr_init(&attributes);
    pthread_attr_setstack(&attributes, stack, STACK_BYTES);
    if (pthread_create(&thread, &attributes, call, &length) != 0) {
        fprintf(stderr, "no thread\n");
        return 1;
    }
    pthread_join(thread, NULL);

    size_t unused = 0;
    while (unused < STACK_BYTES && stack[unused] == FILL) {
        unused++;
    }
    printf("answer %lld, stack used %zu KiB\n", (long long)length, (STACK_BYTES - unused) / 1024);
    return 0;
}
