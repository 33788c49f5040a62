/* What the header defines itself, beside the library: the text of each status, the version, and NULL
 * for what lets go of a handle. It ends with 0, or tells what differs. */
#include <stdio.h>
#include <string.h>

#include "telgovan.h"

/* Whether the library writes the text that the header has. */
static int is_same(uint32_t status) {
    uint8_t room[200];
    struct telgovan_written written;
    const char *text = telgovan_status_text(status);
    return telgovan_status_words(status, room, sizeof room, &written) == TELGOVAN_OK &&
           written.length == strlen(text) && memcmp(room, text, strlen(text)) == 0;
}

int main(void) {
    for (uint32_t status = 0; status < 300; status++) {
        if (!is_same(status)) {
            printf("status %u: %s\n", (unsigned)status, telgovan_status_text(status));
            return 1;
        }
    }
    if (telgovan_version() != TELGOVAN_VERSION) {
        printf("the header is of version %s\n", TELGOVAN_VERSION_TEXT);
        return 1;
    }
    telgovan_program_unload(NULL);
    telgovan_task_drop(NULL);
    telgovan_world_drop(NULL);
    telgovan_desk_free(NULL);
    return 0;
}
