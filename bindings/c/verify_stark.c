/* Verifies a stranger's proof of the caller's own statement: verify_stark STATEMENT PROOF. */
#include "circle.h"

#include <stdio.h>

static uint8_t texts[2][1 << 24];

int main(int argc, char **argv) {
    uint8_t line[CIRCLE_STARK_LINE_LEN];
    size_t lens[2], needed;
    for (int i = 0; i < 2; i++) {
        FILE *file = argc == 3 ? fopen(argv[i + 1], "rb") : NULL;
        if (file == NULL) {
            return 3;
        }
        lens[i] = fread(texts[i], 1, sizeof texts[i], file);
        fclose(file);
    }
    uint8_t status = circle_stark_verify(texts[0], lens[0], texts[1], lens[1], line, sizeof line,
                                         &needed);
    fwrite(line, 1, needed, stdout);
    return status;
}
