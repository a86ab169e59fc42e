/* Reading a whole file: the part that the examples share. */
#ifndef NEKBROD_EXAMPLES_READ_FILE_H
#define NEKBROD_EXAMPLES_READ_FILE_H

#include <stdbool.h>
#include <stdint.h>
#include <stdio.h>
#include <stdlib.h>

/* The bytes of a file, whatever its length, and that length. */
struct file {
    uint8_t *bytes;
    size_t len;
};

/* Whether all of it was read; the bytes are the caller's to free, also where not. */
static bool read_file(const char *name, struct file *file)
{
    FILE *stream = fopen(name, "rb");
    size_t room = 0;
    file->bytes = NULL;
    file->len = 0;
    if (stream == NULL) {
        return false;
    }
    do {
        if (file->len == room) {
            uint8_t *grown = realloc(file->bytes, room + 32768);
            if (grown == NULL) {
                fclose(stream);
                return false;
            }
            file->bytes = grown;
            room += 32768;
        }
        file->len += fread(file->bytes + file->len, 1, room - file->len, stream);
    } while (!feof(stream) && !ferror(stream));
    bool whole = !ferror(stream);
    fclose(stream);
    return whole;
}

#endif
