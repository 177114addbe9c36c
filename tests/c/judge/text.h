/* Reads a file's text, or ends the program with status 3. */
#include <stdint.h>
#include <stdio.h>
#include <stdlib.h>

static struct {
    const char *name;
    uint8_t *bytes;
    size_t length;
} text;

static void fail(const char *what) {
    perror(what);
    exit(3);
}

static void read_text(const char *name) {
    FILE *file = fopen(name, "rb");
    if (!file || fseek(file, 0, SEEK_END) != 0)
        fail(name);
    text.name = name;
    text.length = (size_t)ftell(file);
    text.bytes = malloc(text.length + 1);
    rewind(file);
    if (!text.bytes || fread(text.bytes, 1, text.length, file) != text.length)
        fail(name);
    fclose(file);
}
