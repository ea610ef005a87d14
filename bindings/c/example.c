/* Verifies the proof in a file as the program's command `verify` does, and prints the line.
 *
 *   example FILE                      by the parameters in the file
 *   example FILE N N N N N N N        by these parameters, in the order of circle_params
 */
#include "circle.h"

#include <stdio.h>
#include <stdlib.h>

/* The file's bytes, and how many; null where it can't be read. */
static uint8_t *bytes_of(const char *path, size_t *len) {
    FILE *file = fopen(path, "rb");
    uint8_t *bytes = NULL;
    if (file == NULL) {
        return NULL;
    }
    fseek(file, 0, SEEK_END);
    long size = ftell(file);
    rewind(file);
    if (size >= 0) {
        /* One byte more, so that an empty text has a pointer too. */
        bytes = malloc((size_t)size + 1);
        if (bytes != NULL && fread(bytes, 1, (size_t)size, file) != (size_t)size) {
            free(bytes);
            bytes = NULL;
        }
        *len = (size_t)size;
    }
    fclose(file);
    return bytes;
}

int main(int argc, char **argv) {
    uint8_t line[CIRCLE_LINE_LEN], status;
    size_t text_len = 0, needed, n[7];
    uint8_t *text = argc == 2 || argc == 9 ? bytes_of(argv[1], &text_len) : NULL;
    if (text == NULL) {
        fprintf(stderr, "usage: example FILE [N N N N N N N]\n");
        return 3;
    }
    if (argc == 2) {
        status = circle_verify(text, text_len, line, sizeof line, &needed);
    } else {
        for (int at = 0; at < 7; at++) {
            n[at] = strtoull(argv[2 + at], NULL, 10);
        }
        circle_params params = {n[0], n[1], n[2], n[3], n[4], n[5], n[6]};
        status = circle_verify_with(text, text_len, &params, line, sizeof line, &needed);
    }
    fwrite(line, 1, needed, stdout);
    free(text);
    return status;
}
