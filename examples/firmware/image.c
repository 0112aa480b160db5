/* A group's RAM to Intel HEX and back, from standard input to standard output: `image write PART CHIPS` or `image read PART CHIPS`, part 0 for the PCF8532 and 1 for the PCA85133.
 * A refusal's number and place stand on standard error, and the status is 1. */
#include <humtrellis.h>
#include <stdio.h>
#include <stdlib.h>
#include <string.h>

int main(int count, char **words) {
    static uint8_t in[65537], out[HUMTRELLIS_HEX];
    size_t answer[HUMTRELLIS_ANSWER];
    if (count != 4 || (strcmp(words[1], "write") != 0 && strcmp(words[1], "read") != 0)) {
        fprintf(stderr, "usage: image write|read PART CHIPS\n");
        return 2;
    }
    const uint8_t part = (uint8_t)atoi(words[2]), chips = (uint8_t)atoi(words[3]);
    const size_t columns = (part == HUMTRELLIS_PCA85133 ? HUMTRELLIS_PCA85133_COLUMNS : HUMTRELLIS_COLUMNS) * (size_t)chips;
    const size_t length = fread(in, 1, sizeof in, stdin);
    if (strcmp(words[1], "write") == 0)
        humtrellis_hex_write(part, chips, in, length, out, sizeof out, answer, HUMTRELLIS_ANSWER);
    else
        humtrellis_hex_read(part, chips, in, length, out, columns <= sizeof out ? columns : 0, answer, HUMTRELLIS_ANSWER);
    if (answer[HUMTRELLIS_NUMBER] != HUMTRELLIS_TAKEN) {
        fprintf(stderr, "X %zu %zu\n", answer[HUMTRELLIS_NUMBER], answer[HUMTRELLIS_PLACE]);
        return 1;
    }
    return fwrite(out, 1, answer[HUMTRELLIS_WRITTEN], stdout) != answer[HUMTRELLIS_WRITTEN];
}
