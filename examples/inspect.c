/* Shows what is in an exchange file (docs/FILE.md), SDS by SDS.
 *
 *   cc inspect.c $(pkg-config --cflags --libs cisternfox) -o inspect && ./inspect <sequence.cff
 *
 * Bytes that are not accepted get one line on standard output, and the status is 1; it is 2 where nothing could be read
 * or written. Names, parents, applications, ends and modes are asked of the base that was read in. What no call tells,
 * the names of SDSs and what a type is, stands in the file, whose fields need no test once it is accepted.
 *
 * It compiles as C99 and later, and as C++. */
#include <cisternfox.h>
#include <stdio.h>
#include <stdlib.h>

#define BASE base, sizeof base
#define SCHEMA schema, sizeof schema
#define OUTPUT output, sizeof output

static uint8_t base[CF_BASE_LENGTH];
static uint8_t schema[1]; /* the working schema: the SDS that is shown */
static uint8_t output[CF_OUTPUT_LENGTH];

enum section { SDSS, TYPES, PARENTS, PRESENCES, APPLICATIONS, ENDS, SECTIONS };
static const size_t widths[SECTIONS] = {17, 4, 2, 20, 3, 4};
static const uint8_t *entries[SECTIONS];
static size_t counts[SECTIONS];

/* Six sections of 65,535 entries. No well-formed file is longer, so with one byte more the answer is the same whatever
 * comes behind it. */
enum { LONGEST = 6 * 2 + 65535 * (17 + 4 + 2 + 20 + 3 + 4) };
static uint8_t file[LONGEST + 1];

/* Of an accepted file. */
static void find_sections(void)
{
    const uint8_t *at = file;
    for (int n = 0; n < SECTIONS; n++) {
        counts[n] = (size_t)(at[0] | at[1] << 8);
        entries[n] = at + 2;
        at = entries[n] + counts[n] * widths[n];
    }
}

/* The entry of a type, and so its kind, its value kind or category, and its reverse. */
static const uint8_t *entry_of(size_t type)
{
    const uint8_t *entry = entries[TYPES];
    while (entry[0] != type)
        entry += widths[TYPES];
    return entry;
}

/* No call on the base that was read in is refused. */
static cf_answer must(cf_answer answer)
{
    if (answer.no != CF_DONE) {
        fprintf(stderr, "inspect: %u, %s\n", (unsigned)answer.no, cf_words(answer.no));
        exit(2);
    }
    return answer;
}

/* The local name of a type, `-` for none, in a column of that width. */
static void print_name(size_t type, int width)
{
    cf_answer name = must(cf_name(BASE, schema[0], type));
    if (name.two == 0)
        printf("%-*s", width, "-");
    else
        printf("%-*.*s", width, (int)name.two, (const char *)base + name.one);
}

static void print_type(size_t type)
{
    printf("%u ", (unsigned)type);
    print_name(type, 0);
}

/* What a scan has put into the output, if anything. */
static void print_list(const char *what, cf_answer scan)
{
    size_t count = must(scan).one;
    for (size_t n = 0; n < count; n++) {
        printf(n == 0 ? "        %-16s" : ", ", what);
        print_type((size_t)(output[2 * n] | output[2 * n + 1] << 8));
    }
    if (count > 0)
        putchar('\n');
}

static void print_modes(const char *what, size_t modes)
{
    static const char *const words[] = {"create", "delete", "read", "write", "navigate"};
    printf("        %-16s", what);
    for (size_t n = 0, shown = 0; n < 5; n++)
        if (modes >> n & 1)
            printf("%s%s", shown++ > 0 ? ", " : "", words[n]);
    puts(modes == 0 ? "none" : "");
}

static void print_object(size_t type)
{
    puts("object");
    print_list("parents", cf_scan_object(BASE, SCHEMA, type, 2, OUTPUT));
    print_list("attributes", cf_scan_object(BASE, SCHEMA, type, 4, OUTPUT));
    print_list("origin of", cf_scan_object(BASE, SCHEMA, type, 6, OUTPUT));
    print_list("destination of", cf_scan_object(BASE, SCHEMA, type, 8, OUTPUT));
}

static void print_attribute(size_t value_kind)
{
    static const char *const words[] = {"boolean", "integer", "natural", "float", "time", "string"};
    printf("attribute, %s\n", words[value_kind]);
}

static void print_link(size_t type, size_t category, size_t reverse)
{
    static const char *const words[] = {"composition", "existence", "reference", "implicit", "designation"};
    printf("link, %s", words[category]);
    if (category != 4) {
        printf(", reverse ");
        print_type(reverse);
    }
    putchar('\n');
    print_list("attributes", cf_scan_link(BASE, SCHEMA, type, 4, OUTPUT));
    print_list("origins", cf_scan_link(BASE, SCHEMA, type, 0, OUTPUT));
    print_list("destinations", cf_scan_link(BASE, SCHEMA, type, 2, OUTPUT));
}

/* A type that the SDS holds. */
static void print_presence(size_t type)
{
    const uint8_t *entry = entry_of(type);
    cf_answer modes = must(cf_modes(BASE, SCHEMA, type));
    printf("%5u ", (unsigned)type);
    print_name(type, 18);
    switch (entry[1]) {
    case 1: print_object(type); break;
    case 2: print_attribute(entry[2]); break;
    case 3: print_link(type, entry[2], entry[3]); break;
    }
    if (modes.one != CF_ALL_MODES)
        print_modes("usage", modes.one);
    if (modes.two != CF_ALL_MODES)
        print_modes("definition", modes.two);
}

static void print_sds(const uint8_t *entry)
{
    schema[0] = entry[0];
    printf("SDS %u %.16s\n", (unsigned)entry[0], (const char *)entry + 1);
    for (size_t type = 0; type < CF_TYPES; type++)
        if (cf_name(BASE, entry[0], type).no == CF_DONE)
            print_presence(type);
}

static int refuse(cf_answer answer)
{
    printf("%u", (unsigned)answer.no);
    if (answer.no == CF_FILE_MALFORMED)
        printf(" at byte %u", (unsigned)answer.one);
    printf(": %s\n", cf_words(answer.no));
    return 1;
}

int main(int argc, char **argv)
{
    if (argc > 1) {
        fprintf(stderr, "usage: %s <FILE\n", argv[0]);
        return 2;
    }
    size_t length = fread(file, 1, sizeof file, stdin);
    if (ferror(stdin)) {
        perror("inspect");
        return 2;
    }
    int status = 0;
    cf_answer read = cf_read_file(BASE, file, length);
    if (read.no != CF_DONE) {
        status = refuse(read);
    } else {
        find_sections();
        for (size_t n = 0; n < counts[SDSS]; n++)
            print_sds(entries[SDSS] + n * widths[SDSS]);
    }
    if (fflush(stdout) != 0) {
        perror("inspect");
        return 2;
    }
    return status;
}
