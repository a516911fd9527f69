// What the programs that check the library share: a text with its length, and checks that end the program where they do not hold.
#pragma once
#include <stdio.h>
#include <stdlib.h>
#include <string.h>
#include "fiorrudda.h"

#define T(text) (const uint8_t *)(text), sizeof(text) - 1
#define IS(code, call)                                                                            \
    do {                                                                                          \
        uint32_t came = (call);                                                                   \
        if (came != FIORRUDDA_##code) {                                                           \
            fprintf(stderr, "%s:%d: %s is %u\n", __FILE__, __LINE__, #call, (unsigned)came);      \
            exit(1);                                                                              \
        }                                                                                         \
    } while (0)
#define HOLDS(fact)                                                                               \
    do {                                                                                          \
        if (!(fact)) {                                                                            \
            fprintf(stderr, "%s:%d: not %s\n", __FILE__, __LINE__, #fact);                        \
            exit(1);                                                                              \
        }                                                                                         \
    } while (0)
