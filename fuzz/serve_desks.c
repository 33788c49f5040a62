/* Two desks that hear the same bytes: one in a single piece, the other in pieces that the first byte
 * says. Both must answer the same, as whole frames, and hand the same jobs over, each once. A job
 * ends once, by its credit or by a failure, and no credit is lost. AddressSanitizer looks on, and
 * its leak checker. The bytes are texts, each ended by a line feed, which become frames; a text that
 * begins with ! goes in as it is, and may break the stream. */
#include <stdint.h>
#include <stdio.h>
#include <stdlib.h>
#include <string.h>

#include "telgovan.h"

enum { ROOM = 1 << 16, MOST = 1 << 17 };

static void holds(int condition) {
    if (!condition) abort();
}

/* A desk with a client, and what it said. */
struct side {
    struct telgovan_desk desk;
    uint64_t client;
    uint8_t *said;
    size_t length, jobs;
};

static void begin(struct side *side) {
    memset(side, 0, sizeof *side);
    uint64_t early;
    holds(telgovan_desk_connect(&side->desk, &early) == 41);
    holds(telgovan_desk_new(&side->desk) == 0);
    holds(telgovan_desk_connect(&side->desk, &early) == 0 && early == 1);
    holds(telgovan_desk_disconnect(&side->desk, early) == 0);
    holds(telgovan_desk_connect(&side->desk, &side->client) == 0 && side->client == 2);
    uint8_t none = 0;
    holds(telgovan_desk_feed(&side->desk, early, &none, 0) == 78);
    side->said = malloc(MOST);
    holds(side->said != NULL);
}

/* Takes what is to be sent, in rooms of this size. */
static void hear(struct side *side, size_t room) {
    struct telgovan_sent sent;
    do {
        size_t left = MOST - side->length;
        if (left == 0) exit(0); /* more than is compared */
        holds(telgovan_desk_replies(&side->desk, side->client, side->said + side->length,
                                    room < left ? room : left, &sent) == 0);
        side->length += sent.count;
    } while (sent.left > 0);
}

/* Takes each job that waits, and ends it once. */
static void run_jobs(struct side *side) {
    static uint8_t object[ROOM];
    struct telgovan_handed handed;
    struct telgovan_task task = {0};
    uint8_t none = 0;
    for (;;) {
        holds(telgovan_desk_next_job(&side->desk, &none, 0, &handed) == 65 || handed.job == 0);
        if (handed.job == 0) return;
        uint64_t waits = handed.job;
        struct telgovan_report failed = {.status = 99};
        holds(telgovan_desk_finish(&side->desk, waits, &failed, &none, 0, &task, 0) == 76);
        if (handed.length > ROOM) return;
        holds(telgovan_desk_next_job(&side->desk, object, ROOM, &handed) == 0);
        holds(handed.job == waits && waits == ++side->jobs);
        holds(object[0] == '{' && object[handed.length - 1] == '}');
        struct telgovan_report report = {.spent = (uint32_t)waits};
        struct telgovan_report *told = waits % 2 ? &failed : &report;
        holds(telgovan_desk_finish(&side->desk, waits, told, &none, 0, &task, 1) == 0);
        holds(telgovan_desk_finish(&side->desk, waits, told, &none, 0, &task, 1) == 76);
    }
}

/* The replies are whole frames. */
static void check_frames(const struct side *side) {
    size_t at = 0;
    while (at < side->length) {
        holds(side->length - at >= 4);
        const uint8_t *head = side->said + at;
        size_t length =
            (size_t)head[0] << 24 | (size_t)head[1] << 16 | (size_t)head[2] << 8 | head[3];
        holds(length >= 2 && length <= side->length - at - 4);
        holds(head[4] == '{' && head[3 + length] == '}');
        at += 4 + length;
    }
}

/* The texts as frames. */
static size_t framed(const uint8_t *data, size_t size, uint8_t *stream) {
    size_t length = 0, start = 0;
    for (size_t n = 0; n <= size; n++) {
        if (n < size && data[n] != '\n') continue;
        size_t text = n - start;
        if (text > 0 && data[start] == '!') {
            memcpy(stream + length, data + start + 1, text - 1);
            length += text - 1;
        } else {
            for (int k = 0; k < 4; k++) stream[length++] = (uint8_t)(text >> (24 - 8 * k));
            memcpy(stream + length, data + start, text);
            length += text;
        }
        start = n + 1;
    }
    return length;
}

int LLVMFuzzerTestOneInput(const uint8_t *data, size_t size) {
    struct side whole, cut;
    if (size < 2 || size > 8192) return 0;
    size_t piece = data[0] % 61 + 1, at = 0;
    uint8_t *stream = malloc(5 * size + 8);
    holds(stream != NULL);
    size_t length = framed(data + 1, size - 1, stream);
    begin(&whole);
    begin(&cut);
    uint32_t one = telgovan_desk_feed(&whole.desk, whole.client, stream, length), two = 0;
    holds(one == 0 || one == 71);
    while (at < length && two == 0) {
        size_t more = length - at < piece ? length - at : piece;
        two = telgovan_desk_feed(&cut.desk, cut.client, stream + at, more);
        hear(&cut, piece);
        at += more;
    }
    holds(one == two);
    holds(telgovan_desk_feed(&whole.desk, whole.client, stream, 0) == one);
    hear(&whole, ROOM);
    holds(whole.length == cut.length && memcmp(whole.said, cut.said, cut.length) == 0);
    check_frames(&whole);
    run_jobs(&whole);
    run_jobs(&cut);
    holds(whole.jobs == cut.jobs);
    telgovan_desk_free(&whole.desk);
    telgovan_desk_free(&whole.desk);
    telgovan_desk_free(&cut.desk);
    free(whole.said);
    free(cut.said);
    free(stream);
    return 0;
}
