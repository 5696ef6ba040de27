/* Makes calls of the library for the benchmark and, where the comparison (tests/compare) cannot link the archive, for
 * that: the archive is x86-64 code, so on another machine this program alone runs under an emulator.
 *
 * It writes one line, the length of a base, the most that a file has and the names of the functions below, and then
 * answers requests until its input ends. A request is a `struct request`, then one area of bytes that holds all that the
 * call is lent. A reply is a `struct reply`, then the whole area as the call left it. Nothing is compared here, and
 * nothing is kept. */
#include "cisternfox.h"
#include "clock.h"
#include <stdio.h>
#include <string.h>

struct slice {
    uint8_t *at;
    size_t length;
};

/* What a call is lent: its numbers and its slices beside base and output are in the order of the header. */
struct lent {
    struct slice base, output, texts[3];
    size_t numbers[3];
};

#define BASE c->base.at, c->base.length
#define OUTPUT c->output.at, c->output.length
#define TEXT(n) c->texts[n].at, c->texts[n].length
#define NUMBER(n) c->numbers[n]

/* THE ONE LIST of what is compared: a new export is one more line. */
#define EXPORTED(CALL) \
    CALL(fresh, BASE) \
    CALL(new_sds, BASE, TEXT(0)) \
    CALL(remove_sds, BASE, NUMBER(0)) \
    CALL(new_object, BASE, NUMBER(0), TEXT(0), TEXT(1)) \
    CALL(new_attribute, BASE, NUMBER(0), TEXT(0), NUMBER(1)) \
    CALL(new_designation, BASE, NUMBER(0), TEXT(0)) \
    CALL(new_pair, BASE, NUMBER(0), TEXT(0), TEXT(1), NUMBER(1), NUMBER(2)) \
    CALL(import, BASE, NUMBER(0), NUMBER(1), TEXT(0), TEXT(1), TEXT(2)) \
    CALL(apply, BASE, NUMBER(0), TEXT(0), TEXT(1)) \
    CALL(unapply, BASE, NUMBER(0), TEXT(0), TEXT(1)) \
    CALL(apply_link, BASE, NUMBER(0), TEXT(0), TEXT(1)) \
    CALL(unapply_link, BASE, NUMBER(0), TEXT(0), TEXT(1)) \
    CALL(add_destination, BASE, NUMBER(0), TEXT(0), TEXT(1)) \
    CALL(remove_destination, BASE, NUMBER(0), TEXT(0), TEXT(1)) \
    CALL(remove_type, BASE, NUMBER(0), TEXT(0)) \
    CALL(remove_number, BASE, NUMBER(0), NUMBER(1)) \
    CALL(rename, BASE, NUMBER(0), TEXT(0), TEXT(1)) \
    CALL(rename_number, BASE, NUMBER(0), NUMBER(1), TEXT(0)) \
    CALL(set_modes, BASE, NUMBER(0), TEXT(0), NUMBER(1), NUMBER(2)) \
    CALL(read_file, BASE, TEXT(0)) \
    CALL(name, BASE, NUMBER(0), NUMBER(1)) \
    CALL(scan_object, BASE, TEXT(0), NUMBER(0), NUMBER(1), OUTPUT) \
    CALL(scan_link, BASE, TEXT(0), NUMBER(0), NUMBER(1), OUTPUT) \
    CALL(profile, BASE, TEXT(0), NUMBER(0), OUTPUT) \
    CALL(find, BASE, TEXT(0), TEXT(1)) \
    CALL(depth, BASE, TEXT(0), NUMBER(0)) \
    CALL(descendant_set, BASE, TEXT(0), NUMBER(0)) \
    CALL(modes, BASE, TEXT(0), NUMBER(0)) \
    CALL(write_file, BASE, OUTPUT)

#define FUNCTION(name, ...) \
    static cf_answer call_##name(const struct lent *c) { return cf_##name(__VA_ARGS__); }
EXPORTED(FUNCTION)

#define ENTRY(name, ...) call_##name,
static cf_answer (*const functions[])(const struct lent *) = {EXPORTED(ENTRY)};

#define WORD(name, ...) " " #name
static const char names[] = EXPORTED(WORD);

/* Words of 64 bits, low byte first, as x86-64 has them. */
struct request {
    uint64_t function; /* its place among the names */
    uint64_t times;    /* how often the call is made: once, except to be timed */
    uint64_t numbers[3];
    struct {
        uint64_t start, length;
    } parts[5]; /* where in the area: base, output, texts */
    uint64_t area_length;
};

struct reply {
    uint64_t answer[4];
    uint64_t nanoseconds; /* that the calls took together */
};

static uint8_t area[1 << 20];

static struct slice part(const struct request *request, size_t n)
{
    return (struct slice){area + request->parts[n].start, request->parts[n].length};
}

static struct lent lent_by(const struct request *request)
{
    struct lent lent = {.base = part(request, 0), .output = part(request, 1)};
    for (size_t n = 0; n < 3; n++) {
        lent.texts[n] = part(request, 2 + n);
        lent.numbers[n] = request->numbers[n];
    }
    return lent;
}

/* Each of the calls finds the area as it came: only what passes within them is timed. */
static struct reply answer(const struct request *request)
{
    static uint8_t found[sizeof area];
    struct lent lent = lent_by(request);
    cf_answer answer = {0, 0, 0, 0};
    uint64_t nanoseconds = 0;
    memcpy(found, area, request->area_length);
    for (uint64_t n = 0; n < request->times; n++) {
        if (n > 0)
            memcpy(area, found, request->area_length);
        uint64_t start = now();
        answer = functions[request->function](&lent);
        nanoseconds += now() - start;
    }
    return (struct reply){{answer.no, answer.one, answer.two, answer.three}, nanoseconds};
}

int main(void)
{
    static char in[1 << 16], out[1 << 16];
    struct request request;
    setvbuf(stdin, in, _IOFBF, sizeof in);
    setvbuf(stdout, out, _IOFBF, sizeof out);
    printf("%zu %zu%s\n", cf_base_length(), cf_file_most(), names);
    fflush(stdout);
    while (fread(&request, sizeof request, 1, stdin) == 1) {
        if (request.function >= sizeof functions / sizeof *functions || request.area_length > sizeof area)
            return 1;
        if (fread(area, 1, request.area_length, stdin) != request.area_length)
            return 1;
        struct reply reply = answer(&request);
        fwrite(&reply, sizeof reply, 1, stdout);
        fwrite(area, 1, request.area_length, stdout);
        if (fflush(stdout) != 0)
            return 1;
    }
    return 0;
}
