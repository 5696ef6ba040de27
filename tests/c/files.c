/* Answers for tests/file.py. Standard input has requests until it ends: a length in 4 bytes, low byte first, and so many
 * bytes, a file to be read in. The reply to each is the number and `one` of cf_read_file and the length of the file that
 * cf_write_file writes of the base, 0 where it was refused, in 8 bytes each, low byte first; then that file.
 * Status 2, with a line on standard error: a refusal changed the base, a base just read in is not written, or the bytes
 * that came in or are to go out can't be had or sent. */
#include <stdio.h>
#include <stdlib.h>
#include <string.h>

#include "cisternfox.h"

#define REQUEST_MOST (CF_FILE_MOST + 4096)
#define OTHER 0xA5 /* what a base holds before: no base has this in all its bytes */

static void end(const char *why)
{
    fprintf(stderr, "files: %s\n", why);
    exit(2);
}

static void put(uint64_t value)
{
    int i;

    for (i = 0; i < 8; i++)
        putchar((int)(value >> 8 * i & 0xFF));
}

int main(void)
{
    static uint8_t base[CF_BASE_LENGTH], other[CF_BASE_LENGTH], output[CF_FILE_MOST];
    uint8_t head[4];
    size_t got;

    memset(other, OTHER, sizeof other);
    while ((got = fread(head, 1, sizeof head, stdin)) == sizeof head) {
        size_t length = head[0] | (size_t)head[1] << 8 | (size_t)head[2] << 16 | (size_t)head[3] << 24;
        uint8_t *file = NULL; /* of just this length, so that a checked build sees a byte read behind it */
        cf_answer answer, written = {0, 0, 0, 0};

        if (length > REQUEST_MOST)
            end("a request is too long");
        if (length > 0 && (file = malloc(length)) == NULL)
            end("no memory");
        if (length > 0 && fread(file, 1, length, stdin) != length)
            end("a request ends too early");

        memcpy(base, other, sizeof base);
        answer = cf_read_file(base, sizeof base, file, length);
        free(file);
        if (answer.no == CF_DONE) {
            written = cf_write_file(base, sizeof base, output, sizeof output);
            if (written.no != CF_DONE || written.one > sizeof output)
                end("a base that was read in is not written");
        } else if (memcmp(base, other, sizeof base) != 0) {
            end("a refusal changed the base");
        }

        put(answer.no);
        put(answer.one);
        put(written.one);
        fwrite(output, 1, written.one, stdout);
        if (fflush(stdout) != 0 || ferror(stdout))
            end("a reply can't be sent");
    }
    if (got != 0 || ferror(stdin))
        end("a request ends too early");
    return 0;
}
