/* A refusal as a test's failure: its number, what it means, and its place. */
#ifndef REFUSAL_H
#define REFUSAL_H

#include <humtrellis.h>

#ifdef __cplusplus
extern "C" {
#endif

/* 0 if the call was taken; else 1, and a line on standard output says why it was not. `number` is what the call returned. */
int refused(const char *call, uint8_t number, const size_t *answer);

#ifdef __cplusplus
}
#endif

#endif
