/* Text to assemble, and back: what is assembled is disassembled, and that text is the same program.
 * Bytes are disassembled, and their text is the same bytes. */
#include <stdint.h>
#include <stdlib.h>
#include <string.h>

#include "telgovan.h"

enum { CODE = 8 * 4096, TEXT = 64 * 4096 };

static void holds(int condition) {
    if (!condition) abort();
}

/* The bytes, as lines and back, are the same bytes. */
static void comes_back(const uint8_t *code, size_t length) {
    static uint8_t text[TEXT], again[CODE];
    struct telgovan_written lines, bytes;
    uint32_t status = telgovan_disassemble(code, length, text, sizeof text, &lines);
    if (status != 0) {
        holds(status == lines.status && status <= 7);
        return;
    }
    holds(telgovan_assemble(text, lines.length, again, sizeof again, &bytes) == 0);
    holds(bytes.length == length && memcmp(again, code, length) == 0);
}

int LLVMFuzzerTestOneInput(const uint8_t *data, size_t size) {
    static uint8_t code[CODE];
    struct telgovan_written bytes;
    uint32_t status = telgovan_assemble(data, size, code, sizeof code, &bytes);
    holds(status == bytes.status);
    if (status == 0) {
        struct telgovan_written few;
        uint8_t *room = malloc(bytes.length);
        holds(room != NULL && telgovan_assemble(data, size, room, bytes.length - 1, &few) == 65 &&
              few.length == bytes.length);
        free(room);
        comes_back(code, bytes.length);
    } else {
        holds(!bytes.has_place || bytes.place > 0);
    }
    if (size <= CODE) comes_back(data, size);
    return 0;
}
