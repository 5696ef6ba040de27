/* Sixty Ada units, each an instance of two generics, as a host of the keeper has them: the list of what must be
 * analysed is drawn and printed, the base is saved and loaded, and a byte of it is spoiled.
 *
 *   cc units.c $(pkg-config --cflags --libs cisternfox) -o units && ./units
 *
 * It compiles as C99 and later, and as C++. */
#include <cisternfox.h>
#include <stdio.h>
#include <stdlib.h>
#include <string.h>

#define TEXT(text) (const uint8_t *)(text), strlen(text)
#define BASE base, sizeof base
#define SCHEMA schema, sizeof schema

static uint8_t base[CF_BASE_LENGTH];
static uint8_t schema[1]; /* the working schema: the SDSs that are asked, a byte each */

/* Every call ends in an answer; a host looks at its number before its values. */
static size_t must(const char *what, cf_answer answer)
{
    if (answer.no != CF_DONE) {
        fprintf(stderr, "%s: %u, %s\n", what, (unsigned)answer.no, cf_words(answer.no));
        exit(1);
    }
    return answer.one;
}

/* Soundness tells that bytes are a base, not that they are the ones that were saved: that takes a checksum (FNV-1a). */
static uint64_t checksum(void)
{
    uint64_t sum = 14695981039346656037u;
    for (size_t n = 0; n < sizeof base; n++)
        sum = (sum ^ base[n]) * 1099511628211u;
    return sum;
}

static void make_units(size_t bus)
{
    static const char *const generics[] = {"fifo", "pool", "radio"};
    must("object", cf_import(BASE, bus, 0, TEXT("object"), NULL, 0, NULL, 0));
    must("unit", cf_new_object(BASE, bus, TEXT("unit"), TEXT("object")));
    must("generic", cf_new_object(BASE, bus, TEXT("generic"), TEXT("unit")));
    for (size_t n = 0; n < 3; n++)
        must("a generic", cf_new_object(BASE, bus, TEXT(generics[n]), TEXT("generic")));
    for (size_t n = 0; n < 60; n++) {
        char name[CF_NAME_LENGTH + 1], parents[2 * CF_NAME_LENGTH + 2];
        sprintf(name, "unit_%02u", (unsigned)n);
        sprintf(parents, "%s %s", generics[n % 3], generics[(n + 1) % 3]);
        must(name, cf_new_object(BASE, bus, TEXT(name), TEXT(parents)));
    }
}

/* The list from which the statement is drawn: every descendant of the type in that SDS, each once, in rising number. */
static size_t print_descendants(size_t sds, const char *of)
{
    uint8_t list[CF_OUTPUT_LENGTH];
    size_t type = must(of, cf_find(BASE, SCHEMA, TEXT(of)));
    size_t count = must(of, cf_scan_object(BASE, SCHEMA, type, 1, list, sizeof list));
    for (size_t n = 0; n < count; n++) {
        size_t found = (size_t)(list[2 * n] | list[2 * n + 1] << 8);
        cf_answer name = cf_name(BASE, sds, found);
        must("a name", name);
        printf("%.*s%c", (int)name.two, (const char *)base + name.one, n % 10 == 9 || n + 1 == count ? '\n' : ' ');
    }
    printf("%s: %u units\n", of, (unsigned)count);
    return count;
}

int main(void)
{
    must("fresh", cf_fresh(BASE));
    size_t bus = must("bus", cf_new_sds(BASE, TEXT("bus")));
    schema[0] = (uint8_t)bus;
    make_units(bus);
    int whole = print_descendants(bus, "radio") == 40 && print_descendants(bus, "generic") == 63;

    /* saved and loaded */
    FILE *file = tmpfile();
    uint64_t sum = checksum();
    if (file == NULL || fwrite(base, 1, sizeof base, file) != sizeof base)
        return 1;
    memset(base, 0, sizeof base);
    rewind(file);
    if (fread(base, 1, sizeof base, file) != sizeof base || fclose(file) != 0 || checksum() != sum)
        return 1;
    printf("loaded: %s\n", cf_words(cf_find(BASE, SCHEMA, TEXT("unit_59")).no));

    /* spoiled so that it is no base: every call tells so, and changes nothing */
    base[CF_BASE_LENGTH - 1] ^= 1;
    cf_answer spoiled = cf_new_sds(BASE, TEXT("more"));
    base[CF_BASE_LENGTH - 1] ^= 1;
    printf("spoiled: %u, %s\n", (unsigned)spoiled.no, cf_words(spoiled.no));

    /* spoiled so that it is another sound base, in which unit_59 is unit_5y: only the checksum tells */
    cf_answer name = cf_name(BASE, bus, must("unit_59", cf_find(BASE, SCHEMA, TEXT("unit_59"))));
    base[name.one + name.two - 1] ^= '9' ^ 'y';
    cf_answer other = cf_find(BASE, SCHEMA, TEXT("unit_5y"));
    printf("another name: %s, checksum %s\n", cf_words(other.no), checksum() == sum ? "right" : "wrong");
    return whole && spoiled.no == CF_NOT_SOUND && checksum() != sum ? 0 : 1;
}
