/* A claim of a test program: the first that fails is named, and ends the program. */
#ifndef CHECK_H
#define CHECK_H
#include <stdio.h>
#include <stdlib.h>

#define CHECK(claim)                                                                                                                      \
    do {                                                                                                                                  \
        if (!(claim)) {                                                                                                                   \
            fprintf(stderr, "%s:%d: %s\n", __FILE__, __LINE__, #claim);                                                                   \
            exit(EXIT_FAILURE);                                                                                                           \
        }                                                                                                                                 \
    } while (0)

#endif
