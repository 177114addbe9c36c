// Used by the checks of headers for records: a check that ends the program, and a text that is written in pieces.
#include <stdbool.h>
#include <stdint.h>
#include <stdio.h>
#include <stdlib.h>
#include <string.h>

#define CHECK(what) check(what, #what, __FILE__, __LINE__)
#define GIVES(call, result) CHECK((call) == (result))

static void check(bool is_so, const char *what, const char *file, int line) {
    if (!is_so) {
        fprintf(stderr, "%s:%d: not so: %s\n", file, line, what);
        exit(1);
    }
}

// A text that takes `left` more pieces.
struct text {
    char bytes[20000];
    size_t length, left;
};

static bool take_piece(void *to, const char *bytes, size_t length) {
    struct text *text = (struct text *)to;
    CHECK(length > 0 && length < sizeof text->bytes - text->length);
    if (text->left == 0)
        return false;
    text->left--;
    memcpy(text->bytes + text->length, bytes, length);
    text->length += length;
    return true;
}

// Returns the text that `write` writes. It stays until the second call from here. If a piece isn't taken, `write` fails and has
// written a beginning of the text.
static const char *text_by(int (*write)(const void *what, mc2_write_fn take, void *to), const void *what) {
    static struct text texts[2], part;
    static unsigned calls;
    struct text *text = &texts[calls++ % 2];
    text->length = 0;
    text->left = SIZE_MAX;
    GIVES(write(what, take_piece, text), MC2_DONE);
    text->bytes[text->length] = 0;
    for (size_t pieces = 0; pieces < SIZE_MAX - text->left; pieces++) {
        part.length = 0;
        part.left = pieces;
        GIVES(write(what, take_piece, &part), MC2_WRITE_FAILED);
        CHECK(part.left == 0 && part.length < text->length && memcmp(part.bytes, text->bytes, part.length) == 0);
    }
    return text->bytes;
}
