/* The library from C, as the repository service calls it: a handful of calls on small bases, and the edges of document
 * 01 that they have. The comparison (tests/compare) makes many more. */
#include "cisternfox.h"
#include <stdio.h>
#include <string.h>

enum { LENGTH = CF_BASE_LENGTH, OUTPUT = CF_OUTPUT_LENGTH, GUARD = 16 };

static unsigned passed, failed;

static void expect(int line, const char *what, int holds)
{
    if (holds) {
        passed++;
    } else {
        failed++;
        fprintf(stderr, "test.c:%d: %s\n", line, what);
    }
}

static int same(cf_answer found, cf_answer expected)
{
    return found.no == expected.no && found.one == expected.one && found.two == expected.two
        && found.three == expected.three;
}

#define EXPECT(condition) expect(__LINE__, #condition, (condition))
#define ANSWERS(call, ...) expect(__LINE__, #call " is " #__VA_ARGS__, same(call, (cf_answer){__VA_ARGS__}))

/* The base lies between guards, and so does the output, which has the same byte all over before a call. */
static uint8_t area[GUARD + LENGTH + GUARD];
static uint8_t *const base = area + GUARD;
static uint8_t before[LENGTH];
static uint8_t output_area[GUARD + OUTPUT + GUARD];
static uint8_t *const output = output_area + GUARD;

static int is_blank(const uint8_t *bytes, size_t length)
{
    for (size_t n = 0; n < length; n++)
        if (bytes[n] != 0xa5)
            return 0;
    return 1;
}

static int is_guarded(void) { return is_blank(area, GUARD) && is_blank(area + GUARD + LENGTH, GUARD); }

static void keep(void)
{
    memcpy(before, base, LENGTH);
    memset(output_area, 0xa5, sizeof output_area);
}

static int is_kept(void)
{
    return memcmp(before, base, LENGTH) == 0 && is_blank(output_area, sizeof output_area);
}

/* The calls on the base; a name is a string, which holds no byte 0. */
#define TEXT(text) (const uint8_t *)(text), strlen(text)
static cf_answer fresh(void) { return cf_fresh(base, LENGTH); }
static cf_answer new_sds(const char *name) { return cf_new_sds(base, LENGTH, TEXT(name)); }
static cf_answer remove_sds(size_t sds) { return cf_remove_sds(base, LENGTH, sds); }
static cf_answer name(size_t sds, size_t type) { return cf_name(base, LENGTH, sds, type); }

#define NEW_OBJECT(sds, name, parents) cf_new_object(base, LENGTH, sds, TEXT(name), TEXT(parents))
#define NEW_PAIR(sds, name, reverse, category, back) \
    cf_new_pair(base, LENGTH, sds, TEXT(name), TEXT(reverse), category, back)
#define IMPORT(target, source, name, new_name, new_reverse) \
    cf_import(base, LENGTH, target, source, TEXT(name), TEXT(new_name), TEXT(new_reverse))
#define REMOVE_TYPE(sds, name) cf_remove_type(base, LENGTH, sds, TEXT(name))
#define NEW_ATTRIBUTE(sds, name, kind) cf_new_attribute(base, LENGTH, sds, TEXT(name), kind)
#define NEW_DESIGNATION(sds, name) cf_new_designation(base, LENGTH, sds, TEXT(name))
#define APPLY(sds, attribute, to) cf_apply(base, LENGTH, sds, TEXT(attribute), TEXT(to))
#define UNAPPLY(sds, attribute, to) cf_unapply(base, LENGTH, sds, TEXT(attribute), TEXT(to))
#define APPLY_LINK(sds, link, object) cf_apply_link(base, LENGTH, sds, TEXT(link), TEXT(object))
#define UNAPPLY_LINK(sds, link, object) cf_unapply_link(base, LENGTH, sds, TEXT(link), TEXT(object))
#define REMOVE_DESTINATION(sds, link, object) cf_remove_destination(base, LENGTH, sds, TEXT(link), TEXT(object))
#define ADD_DESTINATION(sds, link, object) cf_add_destination(base, LENGTH, sds, TEXT(link), TEXT(object))
#define RENAME(sds, name, new_name) cf_rename(base, LENGTH, sds, TEXT(name), TEXT(new_name))
#define REMOVE_NUMBER(sds, type) cf_remove_number(base, LENGTH, sds, type)
#define RENAME_NUMBER(sds, type, new_name) cf_rename_number(base, LENGTH, sds, type, TEXT(new_name))
#define SET_MODES(sds, name, usage, definition) cf_set_modes(base, LENGTH, sds, TEXT(name), usage, definition)

/* The asking calls; a working schema is a string of bytes, written as SCHEMA("\1\2"). The output's length is the one
 * that is set before. */
static size_t output_length;

#define SCHEMA(sdss) (const uint8_t *)(sdss), sizeof(sdss) - 1
#define SCAN_OBJECT(sdss, type, code) cf_scan_object(base, LENGTH, SCHEMA(sdss), type, code, output, output_length)
#define SCAN_LINK(sdss, type, code) cf_scan_link(base, LENGTH, SCHEMA(sdss), type, code, output, output_length)
#define PROFILE(sdss, type) cf_profile(base, LENGTH, SCHEMA(sdss), type, output, output_length)
#define FIND(sdss, name) cf_find(base, LENGTH, SCHEMA(sdss), TEXT(name))
#define DEPTH(sdss, type) cf_depth(base, LENGTH, SCHEMA(sdss), type)
#define DESCENDANT_SET(sdss, type) cf_descendant_set(base, LENGTH, SCHEMA(sdss), type)
#define MODES(sdss, type) cf_modes(base, LENGTH, SCHEMA(sdss), type)

/* Whether the call, done, has put down the types, a byte each in the string, and nothing beyond. */
static int is_put_down(const char *types, size_t count)
{
    for (size_t n = 0; n < count; n++)
        if (output[2 * n] != (uint8_t)types[n] || output[2 * n + 1] != 0)
            return 0;
    return is_blank(output_area, GUARD) && is_blank(output + 2 * count, OUTPUT - 2 * count + GUARD);
}

/* The call lists the types and gives the counts wherever there is room for all. At every length below it is refused
 * and leaves the output as it was; an odd length has no room for half an entry. */
#define LISTS(call, types, ...) \
    do { \
        size_t count = sizeof(types) - 1; \
        for (output_length = 0; output_length < 2 * count; output_length++) { \
            ANSWERS(call, 15, 0, 0, 0); \
            EXPECT(is_kept()); \
        } \
        for (; output_length < 2 * count + 4; output_length++) { \
            ANSWERS(call, 0, __VA_ARGS__); \
            EXPECT(is_put_down(types, count)); \
            memset(output_area, 0xa5, sizeof output_area); \
        } \
        EXPECT(is_kept()); \
    } while (0)

/* A base that the calls above cannot make is written row by row, as docs/LAYOUT.md has it. Rows of a table rise. */
static struct {
    uint8_t *presence, *application, *end;
} next;

static void begin(const char *first, const char *second)
{
    fresh();
    new_sds(first);
    new_sds(second);
    next.presence = base + 1280 + 20;
    next.application = base + 11520;
    next.end = base + 12288;
}

/* kind, value kind or category, reverse, number of parents, parents */
#define PUT_TYPE(type, ...) memcpy(base + 256 + 8 * (type), (uint8_t[8]){__VA_ARGS__}, 8)
#define PUT_APPLICATION(...) memcpy((next.application += 3) - 3, (uint8_t[3]){__VA_ARGS__}, 3)
#define PUT_END(...) memcpy((next.end += 4) - 4, (uint8_t[4]){__VA_ARGS__}, 4)

static void put_presence(uint8_t sds, const char *name, uint8_t type)
{
    next.presence[0] = sds;
    memcpy(next.presence + 1, name, strlen(name));
    next.presence[17] = type;
    next.presence[18] = next.presence[19] = CF_ALL_MODES;
    next.presence += 20;
}

/* The auditor's case: fifo and fifo2 are both of template and radio. */
enum { UNIT = 1, TEMPLATE, RADIO, FIFO, FIFO2, ADC = FIFO };

static void put_units(void)
{
    PUT_TYPE(UNIT, 1, 0, 0, 1, 0);
    PUT_TYPE(TEMPLATE, 1, 0, 0, 1, UNIT);
    PUT_TYPE(RADIO, 1, 0, 0, 1, UNIT);
    PUT_TYPE(FIFO2, 1, 0, 0, 2, TEMPLATE, RADIO);
    put_presence(1, "fifo2", FIFO2);
    put_presence(1, "object", 0);
    put_presence(1, "radio", RADIO);
    put_presence(1, "template", TEMPLATE);
    put_presence(1, "unit", UNIT);
}

static void a_base_with_fifo(void)
{
    begin("bus", "other");
    PUT_TYPE(FIFO, 1, 0, 0, 2, TEMPLATE, RADIO);
    put_presence(1, "fifo", FIFO);
    put_units();
    keep();
}

/* The same after fifo is removed and adc made: it has the lower number and the later birth. */
static void a_base_with_adc(void)
{
    begin("bus", "other");
    PUT_TYPE(ADC, 1, 0, 0, 1, FIFO2);
    put_presence(1, "adc", ADC);
    put_units();
    keep();
}

/* Low is of left and right, both of top. SDS 2 lacks right, low, an attribute type and nine; each SDS has
 * applications and ends of its own. */
enum { TOP = 1, LEFT, RIGHT, LOW, FIVE, SIX, SEVEN, EIGHT, NINE };

static void a_base_with_links(void)
{
    begin("one", "two");
    PUT_TYPE(TOP, 1, 0, 0, 1, 0);
    PUT_TYPE(LEFT, 1, 0, 0, 1, TOP);
    PUT_TYPE(RIGHT, 1, 0, 0, 1, TOP);
    PUT_TYPE(LOW, 1, 0, 0, 2, LEFT, RIGHT);
    PUT_TYPE(FIVE, 2, 5);
    PUT_TYPE(SIX, 2, 0);
    PUT_TYPE(SEVEN, 3, 1, EIGHT);
    PUT_TYPE(EIGHT, 3, 2, SEVEN);
    PUT_TYPE(NINE, 3, 4);
    put_presence(1, "eight", EIGHT);
    put_presence(1, "five", FIVE);
    put_presence(1, "left", LEFT);
    put_presence(1, "low", LOW);
    put_presence(1, "nine", NINE);
    put_presence(1, "object", 0);
    put_presence(1, "right", RIGHT);
    put_presence(1, "seven", SEVEN);
    put_presence(1, "six", SIX);
    put_presence(1, "top", TOP);
    put_presence(2, "eight", EIGHT);
    put_presence(2, "five", SIX);
    put_presence(2, "left", LEFT);
    put_presence(2, "object", 0);
    put_presence(2, "seven", SEVEN);
    put_presence(2, "top", TOP);
    PUT_APPLICATION(1, TOP, SIX);
    PUT_APPLICATION(1, LOW, FIVE);
    PUT_APPLICATION(1, NINE, FIVE);
    PUT_APPLICATION(2, LEFT, SIX);
    PUT_END(1, SEVEN, 0, LEFT);
    PUT_END(1, EIGHT, 1, LEFT);
    PUT_END(1, NINE, 0, LOW);
    PUT_END(1, NINE, 1, TOP);
    PUT_END(2, SEVEN, 1, TOP);
    PUT_END(2, EIGHT, 0, TOP);
    keep();
}

static void a_fresh_base(void)
{
    memset(area, 0xa5, sizeof area);
    keep();
    ANSWERS(cf_fresh(base, LENGTH - 1), 1, 0, 0, 0);
    ANSWERS(name(0, 0), 1, 0, 0, 0);
    EXPECT(is_kept());
    ANSWERS(fresh(), 0, 0, 0, 0);
    EXPECT(memcmp(base, "system\0\0", 8) == 0);
    EXPECT(is_guarded());
}

static void names_of_sdss(void)
{
    fresh();
    keep();
    ANSWERS(new_sds(""), 4, 0, 0, 0);
    ANSWERS(new_sds("2bus"), 4, 0, 0, 0);
    ANSWERS(new_sds("abcdefghijklmnopq"), 4, 0, 0, 0);
    ANSWERS(new_sds("system"), 11, 0, 0, 0);
    EXPECT(is_kept());
    ANSWERS(new_sds("abcdefghijklmnop"), 0, 1, 0, 0);
    ANSWERS(new_sds("bus"), 0, 2, 0, 0);
    ANSWERS(new_sds("bus"), 11, 0, 0, 0);
    /* A name ends where its length says, whatever comes behind. */
    ANSWERS(cf_new_sds(base, LENGTH, (const uint8_t *)"bus2", 3), 11, 0, 0, 0);
    EXPECT(is_guarded());
}

static void sdss_come_and_go(void)
{
    fresh();
    keep();
    ANSWERS(remove_sds(0), 3, 0, 0, 0);
    ANSWERS(remove_sds(1), 2, 0, 0, 0);
    ANSWERS(remove_sds(16), 2, 0, 0, 0);
    EXPECT(is_kept());
    for (char last = 'a'; last < 'a' + 15; last++)
        ANSWERS(new_sds((char[]){'s', last, 0}), 0, (size_t)(last - 'a' + 1), 0, 0);
    ANSWERS(new_sds("full"), 14, 0, 0, 0);
    ANSWERS(remove_sds(7), 0, 0, 0, 0);
    ANSWERS(new_sds("again"), 0, 7, 0, 0);
    for (size_t sds = 1; sds < 16; sds++)
        ANSWERS(remove_sds(sds), 0, 0, 0, 0);
    EXPECT(is_kept());
    EXPECT(is_guarded());
}

static void numbers_at_full_width(void)
{
    fresh();
    new_sds("bus");
    keep();
    ANSWERS(remove_sds(256 + 1), 2, 0, 0, 0);
    ANSWERS(remove_sds(((size_t)1 << 32) + 1), 2, 0, 0, 0);
    ANSWERS(name((size_t)1 << 32, 0), 2, 0, 0, 0);
    ANSWERS(name(0, 256), 6, 0, 0, 0);
    IMPORT(1, 0, "object", "", "");
    keep();
    ANSWERS(RENAME_NUMBER(256 + 1, 0, "thing"), 2, 0, 0, 0);
    ANSWERS(RENAME_NUMBER(1, 128, "thing"), 6, 0, 0, 0);
    ANSWERS(RENAME_NUMBER(1, 256, "thing"), 6, 0, 0, 0);
    ANSWERS(RENAME_NUMBER(1, (size_t)1 << 32, "thing"), 6, 0, 0, 0);
    ANSWERS(REMOVE_NUMBER(((size_t)1 << 32) + 1, 0), 2, 0, 0, 0);
    ANSWERS(REMOVE_NUMBER(1, 128), 6, 0, 0, 0);
    ANSWERS(REMOVE_NUMBER(1, 256), 6, 0, 0, 0);
    ANSWERS(REMOVE_NUMBER(1, (size_t)1 << 32), 6, 0, 0, 0);
    EXPECT(is_kept());
}

static void name_of_a_type(void)
{
    fresh();
    keep();
    cf_answer found = name(0, 0);
    EXPECT(found.no == 0 && found.two == 6 && found.three == 0);
    EXPECT(found.one <= LENGTH - 6 && memcmp(base + found.one, "object", 6) == 0);
    ANSWERS(name(0, 1), 6, 0, 0, 0);
    ANSWERS(name(1, 0), 2, 0, 0, 0);
    ANSWERS(name(16, 0), 2, 0, 0, 0);
    EXPECT(is_kept());
}

static int is_named(size_t sds, size_t type, const char *text)
{
    cf_answer found = name(sds, type);
    return found.no == 0 && found.two == strlen(text) && memcmp(base + found.one, text, found.two) == 0;
}

static void another_name(void)
{
    a_base_with_fifo();
    ANSWERS(RENAME(16, "fifo", "queue"), 2, 0, 0, 0);
    ANSWERS(RENAME(0, "object", "object"), 3, 0, 0, 0);
    ANSWERS(RENAME(1, "fifo", ""), 4, 0, 0, 0);
    ANSWERS(RENAME(1, "", "queue"), 4, 0, 0, 0);
    ANSWERS(RENAME(1, "queue", "fifo"), 6, 0, 0, 0);
    ANSWERS(RENAME(1, "fifo", "radio"), 11, 0, 0, 0);
    ANSWERS(RENAME(1, "fifo", "fifo"), 0, 0, 0, 0);
    EXPECT(is_kept());
    /* The row moves behind the last, and back. */
    ANSWERS(RENAME(1, "fifo", "zz"), 0, 0, 0, 0);
    EXPECT(is_named(1, FIFO, "zz") && is_named(1, FIFO2, "fifo2") && is_named(1, UNIT, "unit"));
    ANSWERS(FIND("\1", "fifo"), 6, 0, 0, 0);
    ANSWERS(FIND("\1", "zz"), 0, FIFO, 0, 0);
    ANSWERS(RENAME(1, "zz", "fifo"), 0, 0, 0, 0);
    EXPECT(is_kept());
    EXPECT(is_guarded());
}

static void new_types(void)
{
    a_base_with_adc();
    ANSWERS(NEW_ATTRIBUTE(16, "state", 5), 2, 0, 0, 0);
    ANSWERS(NEW_ATTRIBUTE(0, "state", 5), 3, 0, 0, 0);
    ANSWERS(NEW_ATTRIBUTE(1, "9state", 5), 4, 0, 0, 0);
    ANSWERS(NEW_ATTRIBUTE(1, "state", 6), 5, 0, 0, 0);
    ANSWERS(NEW_ATTRIBUTE(1, "radio", 5), 11, 0, 0, 0);
    ANSWERS(NEW_DESIGNATION(1, "radio"), 11, 0, 0, 0);
    EXPECT(is_kept());
    ANSWERS(NEW_ATTRIBUTE(1, "state", 5), 0, 6, 0, 0);
    ANSWERS(NEW_DESIGNATION(1, "points"), 0, 7, 0, 0);
    EXPECT(is_named(1, 6, "state") && is_named(1, 7, "points") && is_named(1, ADC, "adc"));
    keep();
    ANSWERS(APPLY(1, "radio", "state"), 7, 0, 0, 0);
    ANSWERS(APPLY(1, "state", "state"), 7, 0, 0, 0);
    ANSWERS(APPLY(1, "state", "none"), 6, 0, 0, 0);
    ANSWERS(UNAPPLY(1, "state", "radio"), 13, 0, 0, 0);
    EXPECT(is_kept());
    ANSWERS(APPLY(1, "state", "radio"), 0, 0, 0, 0);
    ANSWERS(APPLY(1, "state", "points"), 0, 0, 0, 0);
    ANSWERS(APPLY(1, "state", "radio"), 9, 0, 0, 0);
    output_length = OUTPUT;
    ANSWERS(SCAN_OBJECT("\1", ADC, 5), 0, 1, 0, 0);
    ANSWERS(SCAN_LINK("\1", 7, 4), 0, 1, 0, 0);
    memset(output_area, 0xa5, sizeof output_area);
    ANSWERS(UNAPPLY(1, "state", "points"), 0, 0, 0, 0);
    ANSWERS(UNAPPLY(1, "state", "radio"), 0, 0, 0, 0);
    EXPECT(is_kept());
    EXPECT(is_guarded());
}

static void both_ends(void)
{
    a_base_with_links();
    ANSWERS(APPLY_LINK(1, "seven", "left"), 9, 0, 0, 0);
    ANSWERS(ADD_DESTINATION(1, "eight", "left"), 9, 0, 0, 0);
    ANSWERS(APPLY_LINK(1, "left", "left"), 7, 0, 0, 0);
    ANSWERS(APPLY_LINK(1, "seven", "none"), 6, 0, 0, 0);
    EXPECT(is_kept());
    ANSWERS(APPLY_LINK(1, "seven", "top"), 0, 0, 0, 0);
    ANSWERS(ADD_DESTINATION(1, "nine", "left"), 0, 0, 0, 0);
    keep();
    LISTS(SCAN_LINK("\1", SEVEN, 0), "\1\2", 2, 0, 0);
    LISTS(SCAN_LINK("\1", EIGHT, 2), "\1\2", 2, 0, 0);
    LISTS(SCAN_LINK("\1", NINE, 2), "\1\2", 2, 0, 0);
    /* What one end brought, the other takes away. */
    ANSWERS(REMOVE_DESTINATION(1, "eight", "top"), 0, 0, 0, 0);
    ANSWERS(UNAPPLY_LINK(1, "seven", "top"), 13, 0, 0, 0);
    ANSWERS(REMOVE_DESTINATION(1, "nine", "left"), 0, 0, 0, 0);
    ANSWERS(REMOVE_DESTINATION(1, "nine", "left"), 13, 0, 0, 0);
    ANSWERS(UNAPPLY_LINK(1, "left", "left"), 7, 0, 0, 0);
    a_base_with_links();
    ANSWERS(UNAPPLY_LINK(1, "seven", "left"), 0, 0, 0, 0);
    output_length = OUTPUT;
    ANSWERS(SCAN_LINK("\1", EIGHT, 2), 0, 0, 0, 0);
    ANSWERS(ADD_DESTINATION(1, "eight", "left"), 0, 0, 0, 0);
    EXPECT(is_kept());
    EXPECT(is_guarded());
}

/* The worked sequence of document 01. */
static void the_auditors_case(void)
{
    fresh();
    ANSWERS(new_sds("bus"), 0, 1, 0, 0);
    ANSWERS(IMPORT(1, 0, "object", "", ""), 0, 0, 0, 0);
    ANSWERS(NEW_OBJECT(1, "unit", "object"), 0, UNIT, 0, 0);
    ANSWERS(NEW_OBJECT(1, "template", "unit"), 0, TEMPLATE, 0, 0);
    ANSWERS(NEW_OBJECT(1, "radio", "unit"), 0, RADIO, 0, 0);
    ANSWERS(NEW_OBJECT(1, "fifo", "template radio"), 0, FIFO, 0, 0);
    ANSWERS(NEW_OBJECT(1, "fifo2", "radio template"), 0, FIFO2, 0, 0);
    keep();
    LISTS(SCAN_OBJECT("\1", TEMPLATE, 1), "\4\5", 2, 0, 0);
    ANSWERS(REMOVE_TYPE(1, "template"), 16, FIFO, 0, 0);
    EXPECT(is_kept());
    ANSWERS(REMOVE_TYPE(1, "fifo"), 0, FIFO, 0, 0);
    ANSWERS(NEW_OBJECT(1, "adc", "fifo2"), 0, ADC, 0, 0);
    ANSWERS(new_sds("other"), 0, 2, 0, 0);
    /* One schema has one base. */
    static uint8_t made[LENGTH];
    memcpy(made, base, LENGTH);
    a_base_with_adc();
    EXPECT(memcmp(made, base, LENGTH) == 0);
    LISTS(SCAN_OBJECT("\1", TEMPLATE, 1), "\4\5", 2, 0, 0);
    ANSWERS(DEPTH("\1", ADC), 0, 4, 0, 0);
    EXPECT(is_guarded());
}

static void parents(void)
{
    a_base_with_adc();
    ANSWERS(NEW_OBJECT(1, "x", ""), 5, 0, 0, 0);
    ANSWERS(NEW_OBJECT(1, "x", " "), 4, 0, 0, 0);
    ANSWERS(NEW_OBJECT(1, "x", "unit radio adc fifo2 object"), 5, 0, 0, 0);
    ANSWERS(NEW_OBJECT(1, "x", "unit  radio"), 4, 0, 0, 0);
    ANSWERS(NEW_OBJECT(1, "x", "unit unit none"), 6, 0, 0, 0);
    ANSWERS(NEW_OBJECT(1, "x", "unit radio unit"), 8, 0, 0, 0);
    ANSWERS(NEW_OBJECT(1, "radio", "unit"), 11, 0, 0, 0);
    EXPECT(is_kept());
    ANSWERS(NEW_OBJECT(1, "x", "radio unit fifo2 adc"), 0, 6, 0, 0);
    keep();
    LISTS(SCAN_OBJECT("\1", 6, 2), "\1\3\4\5", 4, 0, 0);
    EXPECT(is_guarded());
}

static void pairs(void)
{
    a_base_with_adc();
    ANSWERS(NEW_PAIR(1, "has", "of", 3, 3), 5, 0, 0, 0);
    ANSWERS(NEW_PAIR(1, "has", "of", 4, 0), 5, 0, 0, 0);
    ANSWERS(NEW_PAIR(1, "has", "has", 0, 3), 11, 0, 0, 0);
    ANSWERS(NEW_PAIR(1, "has", "radio", 0, 3), 11, 0, 0, 0);
    EXPECT(is_kept());
    ANSWERS(NEW_PAIR(1, "has", "of", 0, 3), 0, 6, 7, 0);
    ANSWERS(IMPORT(2, 1, "of", "", ""), 0, 7, 6, 0);
    EXPECT(is_named(2, 6, "has") && is_named(2, 7, "of"));
    ANSWERS(IMPORT(2, 1, "has", "of", ""), 9, 0, 0, 0);
    ANSWERS(IMPORT(2, 1, "radio", "of", ""), 11, 0, 0, 0);
    ANSWERS(name(2, UNIT), 6, 0, 0, 0);
    ANSWERS(IMPORT(2, 0, "object", "of", ""), 11, 0, 0, 0);
    ANSWERS(IMPORT(2, 0, "object", "", "of"), 7, 0, 0, 0);
    /* The pair stays where it was made, and goes from both together. */
    ANSWERS(REMOVE_TYPE(2, "has"), 0, 6, 0, 0);
    ANSWERS(name(2, 7), 6, 0, 0, 0);
    EXPECT(is_named(1, 7, "of"));
    ANSWERS(REMOVE_TYPE(1, "of"), 0, 7, 0, 0);
    EXPECT(is_kept());
    EXPECT(is_guarded());
}

/* Names are the same after A to Z are brought to a to z; the spelling given is kept and shown (02, Q-5). */
static int is_spelt(size_t sds, const char *text)
{
    return memcmp(base + 16 * sds, text, strlen(text)) == 0 && base[16 * sds + strlen(text)] == 0;
}

static void sdss_in_other_spellings(void)
{
    fresh();
    keep();
    ANSWERS(new_sds("System"), 11, 0, 0, 0);
    ANSWERS(new_sds("SYSTEM"), 11, 0, 0, 0);
    ANSWERS(new_sds("system["), 4, 0, 0, 0);
    EXPECT(is_kept());
    ANSWERS(new_sds("Systems"), 0, 1, 0, 0);
    ANSWERS(new_sds("System_"), 0, 2, 0, 0);
    ANSWERS(new_sds("abcdefghijklmnoP"), 0, 3, 0, 0);
    EXPECT(is_spelt(0, "system") && is_spelt(1, "Systems") && is_spelt(2, "System_"));
    keep();
    ANSWERS(new_sds("sYSTEMS"), 11, 0, 0, 0);
    ANSWERS(new_sds("SYSTEM_"), 11, 0, 0, 0);
    ANSWERS(new_sds("abcdefghijklmnop"), 11, 0, 0, 0);
    ANSWERS(new_sds("Abcdefghijklmnop"), 11, 0, 0, 0);
    EXPECT(is_kept());
    EXPECT(is_guarded());
}

static void types_in_other_spellings(void)
{
    a_base_with_adc();
    /* taken */
    ANSWERS(NEW_OBJECT(1, "Radio", "unit"), 11, 0, 0, 0);
    ANSWERS(NEW_ATTRIBUTE(1, "rADIO", 5), 11, 0, 0, 0);
    ANSWERS(NEW_DESIGNATION(1, "RADIO"), 11, 0, 0, 0);
    ANSWERS(NEW_PAIR(1, "A", "a", 0, 3), 11, 0, 0, 0);
    ANSWERS(NEW_PAIR(1, "Adc", "of", 0, 3), 11, 0, 0, 0);
    ANSWERS(NEW_PAIR(1, "of", "aDc", 0, 3), 11, 0, 0, 0);
    ANSWERS(NEW_OBJECT(1, "x", "Unit unit"), 8, 0, 0, 0);
    ANSWERS(NEW_OBJECT(1, "x", "unit radio UNIT"), 8, 0, 0, 0);
    ANSWERS(NEW_OBJECT(1, "x", "Unit uni_"), 6, 0, 0, 0);
    ANSWERS(RENAME(1, "Adc", "RADIO"), 11, 0, 0, 0);
    /* found */
    ANSWERS(FIND("\1", "Template"), 0, TEMPLATE, 0, 0);
    ANSWERS(FIND("\1", "FIFO2"), 0, FIFO2, 0, 0);
    ANSWERS(FIND("\1", "FIFO_"), 6, 0, 0, 0);
    ANSWERS(FIND("\1", "FIFO["), 4, 0, 0, 0);
    ANSWERS(REMOVE_TYPE(1, "Template"), 16, FIFO2, 0, 0);
    EXPECT(is_kept());
    ANSWERS(NEW_OBJECT(1, "Deep", "ADC Radio"), 0, 6, 0, 0);
    ANSWERS(NEW_ATTRIBUTE(1, "State", 5), 0, 7, 0, 0);
    ANSWERS(NEW_PAIR(1, "Has", "oF", 0, 3), 0, 8, 9, 0);
    ANSWERS(NEW_DESIGNATION(1, "points"), 0, 10, 0, 0);
    EXPECT(is_named(1, 6, "Deep") && is_named(1, 7, "State") && is_named(1, 8, "Has") && is_named(1, 9, "oF"));
    keep();
    ANSWERS(APPLY(1, "STATE", "deep"), 0, 0, 0, 0);
    ANSWERS(APPLY(1, "state", "DEEP"), 9, 0, 0, 0);
    ANSWERS(UNAPPLY(1, "sTATE", "dEEP"), 0, 0, 0, 0);
    ANSWERS(UNAPPLY(1, "state", "deep"), 13, 0, 0, 0);
    ANSWERS(APPLY_LINK(1, "hAS", "DEEP"), 0, 0, 0, 0);
    ANSWERS(ADD_DESTINATION(1, "OF", "deep"), 9, 0, 0, 0);
    ANSWERS(REMOVE_DESTINATION(1, "of", "Deep"), 0, 0, 0, 0);
    ANSWERS(ADD_DESTINATION(1, "POINTS", "deep"), 0, 0, 0, 0);
    ANSWERS(UNAPPLY_LINK(1, "Points", "DEEP"), 13, 0, 0, 0);
    ANSWERS(REMOVE_DESTINATION(1, "Points", "DEEP"), 0, 0, 0, 0);
    EXPECT(is_kept());
    ANSWERS(REMOVE_TYPE(1, "DEEP"), 0, 6, 0, 0);
    EXPECT(is_guarded());
}

/* The bytes of the name alone are others, and stand where they stood. */
static void another_spelling(void)
{
    a_base_with_adc();
    size_t start = name(1, RADIO).one;
    ANSWERS(RENAME(1, "radio", "Radio"), 0, 0, 0, 0);
    EXPECT(!is_kept() && is_named(1, RADIO, "Radio") && name(1, RADIO).one == start);
    ANSWERS(RENAME(1, "RADIO", "RADIO"), 0, 0, 0, 0);
    EXPECT(is_named(1, RADIO, "RADIO"));
    ANSWERS(RENAME(1, "radio", "rADIo"), 0, 0, 0, 0);
    EXPECT(is_named(1, RADIO, "rADIo"));
    memcpy(before + start, "rADIo", 5);
    EXPECT(is_kept());
    /* its own present name, whatever it is called by */
    ANSWERS(RENAME(1, "RADIO", "rADIo"), 0, 0, 0, 0);
    EXPECT(is_kept());
    ANSWERS(RENAME(1, "Radio", "Radi_"), 0, 0, 0, 0);
    ANSWERS(FIND("\1", "radio"), 6, 0, 0, 0);
    EXPECT(is_guarded());
}

/* A blank name takes the source's spelling, and is taken where the target has any. */
static void imports_in_other_spellings(void)
{
    a_base_with_adc();
    NEW_PAIR(1, "Has", "oF", 0, 3);
    NEW_ATTRIBUTE(1, "State", 5);
    NEW_ATTRIBUTE(2, "STATE", 5);
    keep();
    ANSWERS(IMPORT(2, 1, "state", "", ""), 11, 0, 0, 0);
    ANSWERS(IMPORT(2, 1, "state", "State", ""), 11, 0, 0, 0);
    ANSWERS(IMPORT(2, 1, "has", "", "state"), 11, 0, 0, 0);
    ANSWERS(IMPORT(2, 1, "has", "OF", ""), 11, 0, 0, 0);
    ANSWERS(IMPORT(2, 1, "has", "of", "Of"), 11, 0, 0, 0);
    EXPECT(is_kept());
    ANSWERS(IMPORT(2, 1, "HAS", "", ""), 0, 6, 7, 0);
    EXPECT(is_named(2, 6, "Has") && is_named(2, 7, "oF"));
    ANSWERS(IMPORT(2, 1, "sTATE", "mODE", ""), 0, 8, 0, 0);
    EXPECT(is_named(2, 8, "mODE") && is_named(1, 8, "State"));
    EXPECT(is_guarded());
}

/* Attribute types 1 and up of these names, in rows that stand so. */
#define NAMED 8

static void a_base_with_names(const char *const *names)
{
    begin("one", "two");
    for (uint8_t type = 1; type <= NAMED; type++) {
        PUT_TYPE(type, 2, 0);
        put_presence(1, names[type - 1], type);
    }
    keep();
}

/* Digits before the underscore, this before the letters, and those alike in either case; by bytes, and as capitals. */
static const char *const by_lowered[NAMED] = {"a", "A0", "a_", "A_a", "aA", "AB", "ab_", "B"};
static const char *const by_bytes[NAMED] = {"A0", "AB", "A_a", "B", "a", "aA", "a_", "ab_"};
static const char *const by_capitals[NAMED] = {"a", "A0", "aA", "AB", "ab_", "a_", "A_a", "B"};

static void rows_by_lowered_names(void)
{
    static uint8_t written[LENGTH];
    a_base_with_names(by_bytes);
    ANSWERS(FIND("\1", "a"), 1, 0, 0, 0);
    a_base_with_names(by_capitals);
    ANSWERS(FIND("\1", "a"), 1, 0, 0, 0);
    a_base_with_names(by_lowered);
    memcpy(written, base, LENGTH);
    for (size_t type = 1; type <= NAMED; type++) {
        const char *spelling = by_lowered[type - 1];
        ANSWERS(FIND("\1", spelling), 0, type, 0, 0);
        ANSWERS(name(1, type), 0, 1281 + 20 * type, strlen(spelling), 0);
    }
    EXPECT(is_kept());
    /* One schema has one base. */
    begin("one", "two");
    for (size_t type = 1; type <= NAMED; type++)
        ANSWERS(NEW_ATTRIBUTE(1, ((char[]){'t', (char)('a' + type), 0}), 0), 0, type, 0, 0);
    for (size_t type = NAMED; type > 0; type--)
        ANSWERS(RENAME(1, ((char[]){'T', (char)('A' + type), 0}), by_lowered[type - 1]), 0, 0, 0, 0);
    EXPECT(memcmp(written, base, LENGTH) == 0);
    EXPECT(is_guarded());
}

/* Whether that base is sound with other bytes in a name. */
static int is_sound_with(size_t at, const char *text)
{
    a_base_with_names(by_lowered);
    memcpy(base + at, text, strlen(text));
    keep();
    cf_answer found = FIND("\1", "A");
    EXPECT(same(found, (cf_answer){0, 1, 0, 0}) || same(found, (cf_answer){1, 0, 0, 0}));
    EXPECT(is_kept());
    return found.no == 0;
}

static void spellings_spoiled(void)
{
    /* where the name of SDS n, and that of the presence in row n, stands */
#define SDS(n) (16 * (n))
#define ROW(n) (1281 + 20 * (n))
    EXPECT(is_sound_with(ROW(1), "A"));
    EXPECT(is_sound_with(ROW(6), "ab"));
    EXPECT(is_sound_with(SDS(1), "ONE"));
    EXPECT(!is_sound_with(SDS(0), "System"));
    EXPECT(!is_sound_with(ROW(0), "Object"));
    /* both spellings, rising and falling, and among SDSs */
    EXPECT(!is_sound_with(ROW(6), "aa"));
    EXPECT(!is_sound_with(ROW(6), "Aa"));
    EXPECT(!is_sound_with(SDS(2), "One"));
    EXPECT(!is_sound_with(SDS(2), "sYSTEM"));
    /* the last letters, and the bytes beside them */
    EXPECT(is_sound_with(ROW(8), "Z") && is_sound_with(ROW(8), "z"));
    EXPECT(!is_sound_with(ROW(8), "[") && !is_sound_with(ROW(8), "{"));
    EXPECT(!is_sound_with(ROW(1), "@") && !is_sound_with(ROW(1), "`"));
    EXPECT(is_guarded());
}

/* Each obstacle to a removal, with the lowest type that stands in the way; type 0 is told as any other. */
static void what_holds_a_type(void)
{
    a_base_with_links();
    ANSWERS(REMOVE_TYPE(1, "object"), 16, TOP, 0, 0);
    ANSWERS(REMOVE_TYPE(1, "top"), 16, LEFT, 0, 0);
    ANSWERS(REMOVE_TYPE(1, "left"), 16, LOW, 0, 0);
    ANSWERS(REMOVE_TYPE(1, "low"), 17, FIVE, 0, 0);
    ANSWERS(REMOVE_TYPE(1, "five"), 17, LOW, 0, 0);
    ANSWERS(REMOVE_TYPE(1, "six"), 17, TOP, 0, 0);
    ANSWERS(REMOVE_TYPE(1, "nine"), 17, FIVE, 0, 0);
    ANSWERS(REMOVE_TYPE(1, "seven"), 18, LEFT, 0, 0);
    ANSWERS(REMOVE_TYPE(1, "eight"), 18, LEFT, 0, 0);
    /* What SDS 1 has doesn't hold in SDS 2: left has no child there. */
    ANSWERS(REMOVE_TYPE(2, "left"), 17, SIX, 0, 0);
    ANSWERS(REMOVE_TYPE(2, "five"), 17, LEFT, 0, 0);
    ANSWERS(REMOVE_TYPE(2, "seven"), 18, TOP, 0, 0);
    ANSWERS(remove_sds(1), 12, 0, 0, 0);
    ANSWERS(remove_sds(2), 12, 0, 0, 0);
    EXPECT(is_kept());
    /* When one is out of the way, the next is told, and with the last the type goes. */
    ANSWERS(UNAPPLY(1, "five", "low"), 0, 0, 0, 0);
    ANSWERS(REMOVE_TYPE(1, "five"), 17, NINE, 0, 0);
    ANSWERS(REMOVE_TYPE(1, "low"), 18, NINE, 0, 0);
    ANSWERS(APPLY_LINK(1, "seven", "low"), 0, 0, 0, 0);
    ANSWERS(REMOVE_TYPE(1, "low"), 18, SEVEN, 0, 0);
    ANSWERS(REMOVE_DESTINATION(1, "eight", "low"), 0, 0, 0, 0);
    ANSWERS(UNAPPLY_LINK(1, "nine", "low"), 0, 0, 0, 0);
    ANSWERS(REMOVE_TYPE(1, "low"), 0, LOW, 0, 0);
    ANSWERS(REMOVE_TYPE(1, "left"), 18, SEVEN, 0, 0);
    ANSWERS(REMOVE_TYPE(1, "right"), 0, RIGHT, 0, 0);
    /* The lowest over both of a pair, by either name. */
    ANSWERS(APPLY(1, "six", "seven"), 0, 0, 0, 0);
    ANSWERS(REMOVE_TYPE(1, "eight"), 17, SIX, 0, 0);
    ANSWERS(APPLY(1, "five", "eight"), 0, 0, 0, 0);
    ANSWERS(REMOVE_TYPE(1, "seven"), 17, FIVE, 0, 0);
    ANSWERS(REMOVE_TYPE(1, "eight"), 17, FIVE, 0, 0);
    ANSWERS(UNAPPLY(1, "five", "eight"), 0, 0, 0, 0);
    ANSWERS(UNAPPLY(1, "six", "seven"), 0, 0, 0, 0);
    ANSWERS(ADD_DESTINATION(1, "eight", "object"), 0, 0, 0, 0);
    ANSWERS(REMOVE_TYPE(1, "seven"), 18, 0, 0, 0);
    ANSWERS(REMOVE_TYPE(1, "eight"), 18, 0, 0, 0);
    ANSWERS(APPLY(1, "six", "object"), 0, 0, 0, 0);
    ANSWERS(REMOVE_TYPE(1, "six"), 17, 0, 0, 0);
    EXPECT(is_guarded());
}

static void what_holds_an_sds(void)
{
    begin("one", "two");
    ANSWERS(NEW_ATTRIBUTE(1, "a", 0), 0, 1, 0, 0);
    ANSWERS(NEW_ATTRIBUTE(2, "b", 0), 0, 2, 0, 0);
    ANSWERS(NEW_ATTRIBUTE(2, "a", 0), 0, 3, 0, 0);
    keep();
    ANSWERS(remove_sds(1), 12, 1, 0, 0);
    ANSWERS(remove_sds(2), 12, 2, 0, 0);
    EXPECT(is_kept());
    ANSWERS(REMOVE_TYPE(2, "b"), 0, 2, 0, 0);
    ANSWERS(remove_sds(2), 12, 3, 0, 0);
    ANSWERS(REMOVE_TYPE(2, "a"), 0, 3, 0, 0);
    ANSWERS(remove_sds(2), 0, 0, 0, 0);
    EXPECT(is_guarded());
}

/* An import brings the ancestors that the target lacks, without a local name (02, Q-8). */
static int is_nameless(size_t sds, size_t type)
{
    cf_answer found = name(sds, type);
    for (size_t n = 0; n < 16; n++)
        if (found.no != 0 || base[found.one + n] != 0)
            return 0;
    return found.two == 0 && found.three == 0 && base[found.one - 1] == sds && base[found.one + 16] == type;
}

static void ancestors_come_along(void)
{
    a_base_with_adc();
    ANSWERS(SET_MODES(1, "unit", 1, 2), 0, 0, 0, 0);
    ANSWERS(IMPORT(2, 1, "adc", "", ""), 0, ADC, 0, 0);
    EXPECT(is_named(2, ADC, "adc"));
    EXPECT(is_nameless(2, 0) && is_nameless(2, UNIT) && is_nameless(2, TEMPLATE) && is_nameless(2, RADIO)
           && is_nameless(2, FIFO2));
    /* by type, each once, and before the one that has a name */
    size_t first = name(2, 0).one;
    EXPECT(name(2, UNIT).one == first + 20 && name(2, TEMPLATE).one == first + 40 && name(2, RADIO).one == first + 60);
    EXPECT(name(2, FIFO2).one == first + 80 && name(2, ADC).one == first + 100);
    ANSWERS(MODES("\2", UNIT), 0, 31, 31, 0);
    keep();
    LISTS(SCAN_OBJECT("\2", ADC, 3), "\0\1\2\3\5", 5, 0, 0);
    LISTS(SCAN_OBJECT("\2", 0, 0), "\1", 1, 0, 0);
    LISTS(PROFILE("\2", FIFO2), "\0\1\2\3", 4, 0, 0);
    ANSWERS(DEPTH("\2", ADC), 0, 4, 0, 0);
    ANSWERS(DEPTH("\2", FIFO2), 0, 3, 0, 0);
    ANSWERS(DESCENDANT_SET("\2", UNIT), 0, 0x3c, 0, 4);
    /* they are there, and no name means them */
    ANSWERS(IMPORT(2, 1, "radio", "", ""), 9, 0, 0, 0);
    ANSWERS(IMPORT(2, 1, "radio", "adc", ""), 9, 0, 0, 0);
    ANSWERS(IMPORT(2, 0, "object", "", ""), 9, 0, 0, 0);
    ANSWERS(FIND("\2", "radio"), 6, 0, 0, 0);
    ANSWERS(FIND("\2", ""), 4, 0, 0, 0);
    ANSWERS(FIND("\2\1", "radio"), 0, RADIO, 0, 0);
    ANSWERS(NEW_OBJECT(2, "unit", "radio"), 6, 0, 0, 0);
    ANSWERS(NEW_OBJECT(2, "unit", "adc "), 4, 0, 0, 0);
    ANSWERS(RENAME(2, "radio", "unit"), 6, 0, 0, 0);
    ANSWERS(REMOVE_TYPE(2, "radio"), 6, 0, 0, 0);
    ANSWERS(SET_MODES(2, "radio", 1, 1), 6, 0, 0, 0);
    EXPECT(is_kept());
    /* what is there stays as it is, and brings nothing that is above it */
    a_base_with_adc();
    ANSWERS(IMPORT(2, 1, "radio", "Unit", ""), 0, RADIO, 0, 0);
    ANSWERS(SET_MODES(2, "unit", 1, 2), 0, 0, 0, 0);
    ANSWERS(IMPORT(2, 1, "adc", "object", ""), 0, ADC, 0, 0);
    EXPECT(is_named(2, RADIO, "Unit") && is_named(2, ADC, "object"));
    EXPECT(is_nameless(2, 0) && is_nameless(2, UNIT) && is_nameless(2, TEMPLATE) && is_nameless(2, FIFO2));
    ANSWERS(MODES("\2", RADIO), 0, 1, 2, 0);
    ANSWERS(FIND("\2", "object"), 0, ADC, 0, 0);
    EXPECT(is_guarded());
}

static void named_by_number(void)
{
    a_base_with_adc();
    IMPORT(2, 1, "adc", "", "");
    keep();
    ANSWERS(RENAME_NUMBER(16, RADIO, "radio"), 2, 0, 0, 0);
    ANSWERS(RENAME_NUMBER(0, 0, "object"), 3, 0, 0, 0);
    ANSWERS(RENAME_NUMBER(2, RADIO, ""), 4, 0, 0, 0);
    ANSWERS(RENAME_NUMBER(2, 6, "1"), 4, 0, 0, 0);
    ANSWERS(RENAME_NUMBER(2, 6, "adc"), 6, 0, 0, 0);
    ANSWERS(RENAME_NUMBER(2, RADIO, "ADC"), 11, 0, 0, 0);
    ANSWERS(RENAME_NUMBER(2, ADC, "adc"), 0, 0, 0, 0);
    EXPECT(is_kept());
    /* it is found then; another that has none may not have the name */
    ANSWERS(RENAME_NUMBER(2, RADIO, "Zig"), 0, 0, 0, 0);
    EXPECT(is_named(2, RADIO, "Zig") && is_nameless(2, TEMPLATE) && is_nameless(2, FIFO2));
    EXPECT(name(2, FIFO2).one == name(2, TEMPLATE).one + 20 && name(2, RADIO).one == name(2, ADC).one + 20);
    ANSWERS(FIND("\2", "zig"), 0, RADIO, 0, 0);
    ANSWERS(RENAME_NUMBER(2, TEMPLATE, "zig"), 11, 0, 0, 0);
    ANSWERS(SET_MODES(2, "zig", 1, 2), 0, 0, 0, 0);
    ANSWERS(RENAME_NUMBER(2, RADIO, "ZIG"), 0, 0, 0, 0);
    ANSWERS(RENAME_NUMBER(2, RADIO, "aaa"), 0, 0, 0, 0);
    EXPECT(is_named(2, RADIO, "aaa") && name(2, ADC).one == name(2, RADIO).one + 20);
    ANSWERS(MODES("\2", RADIO), 0, 1, 2, 0);
    /* any kind of type */
    NEW_PAIR(2, "has", "of", 0, 3);
    ANSWERS(RENAME_NUMBER(2, 7, "has"), 11, 0, 0, 0);
    ANSWERS(RENAME_NUMBER(2, 7, "in"), 0, 0, 0, 0);
    EXPECT(is_named(2, 6, "has") && is_named(2, 7, "in"));
    EXPECT(is_guarded());
}

static void removed_by_number(void)
{
    a_base_with_links();
    ANSWERS(REMOVE_NUMBER(16, TOP), 2, 0, 0, 0);
    ANSWERS(REMOVE_NUMBER(0, 0), 3, 0, 0, 0);
    ANSWERS(REMOVE_NUMBER(2, LOW), 6, 0, 0, 0);
    ANSWERS(REMOVE_NUMBER(1, TOP), 16, LEFT, 0, 0);
    ANSWERS(REMOVE_NUMBER(1, LOW), 17, FIVE, 0, 0);
    ANSWERS(REMOVE_NUMBER(1, FIVE), 17, LOW, 0, 0);
    ANSWERS(REMOVE_NUMBER(1, SEVEN), 18, LEFT, 0, 0);
    ANSWERS(REMOVE_NUMBER(1, EIGHT), 18, LEFT, 0, 0);
    EXPECT(is_kept());
    ANSWERS(UNAPPLY_LINK(1, "seven", "left"), 0, 0, 0, 0);
    ANSWERS(REMOVE_NUMBER(1, EIGHT), 0, EIGHT, 0, 0);
    ANSWERS(name(1, SEVEN), 6, 0, 0, 0);
    EXPECT(is_named(2, SEVEN, "seven"));
    /* ancestors stay, and hold the SDS; they go from below */
    a_base_with_adc();
    IMPORT(2, 1, "adc", "", "");
    ANSWERS(REMOVE_NUMBER(2, ADC), 0, ADC, 0, 0);
    ANSWERS(remove_sds(2), 12, 0, 0, 0);
    ANSWERS(REMOVE_NUMBER(2, 0), 16, UNIT, 0, 0);
    ANSWERS(REMOVE_NUMBER(2, TEMPLATE), 16, FIFO2, 0, 0);
    ANSWERS(RENAME_NUMBER(2, RADIO, "radio"), 0, 0, 0, 0);
    ANSWERS(REMOVE_TYPE(2, "radio"), 16, FIFO2, 0, 0);
    ANSWERS(REMOVE_NUMBER(2, FIFO2), 0, FIFO2, 0, 0);
    ANSWERS(REMOVE_TYPE(2, "radio"), 0, RADIO, 0, 0);
    ANSWERS(REMOVE_NUMBER(2, TEMPLATE), 0, TEMPLATE, 0, 0);
    ANSWERS(REMOVE_NUMBER(2, UNIT), 0, UNIT, 0, 0);
    ANSWERS(remove_sds(2), 12, 0, 0, 0);
    ANSWERS(REMOVE_NUMBER(2, 0), 0, 0, 0, 0);
    EXPECT(is_kept());
    ANSWERS(remove_sds(2), 0, 0, 0, 0);
    EXPECT(is_guarded());
}

/* Rows of SDS 1 that are nameless, or not, by type: 1 and 2 are object types, 3 an attribute type, 4 a link type. */
static int is_sound_with_rows(const char *const *names, const char *types)
{
    begin("one", "two");
    PUT_TYPE(1, 1, 0, 0, 1, 0);
    PUT_TYPE(2, 1, 0, 0, 1, 0);
    PUT_TYPE(3, 2, 0);
    PUT_TYPE(4, 3, 4);
    for (size_t n = 0; n < 5; n++)
        put_presence(1, names[n], (uint8_t)types[n]);
    keep();
    cf_answer found = DEPTH("\0", 0);
    EXPECT(same(found, (cf_answer){0, 0, 0, 0}) || same(found, (cf_answer){1, 0, 0, 0}));
    EXPECT(same(REMOVE_NUMBER(16, 0), (cf_answer){found.no == 0 ? 2 : 1, 0, 0, 0}));
    EXPECT(same(RENAME_NUMBER(16, 0, ""), (cf_answer){found.no == 0 ? 2 : 1, 0, 0, 0}));
    EXPECT(is_kept());
    return found.no == 0;
}

#define ROWS(...) ((const char *const[]){__VA_ARGS__})

static void nameless_rows_spoiled(void)
{
    EXPECT(is_sound_with_rows(ROWS("a", "b", "c", "d", "e"), "\0\1\2\3\4"));
    EXPECT(is_sound_with_rows(ROWS("", "b", "c", "d", "e"), "\2\1\0\3\4"));
    EXPECT(is_sound_with_rows(ROWS("", "", "", "d", "e"), "\0\1\2\3\4"));
    /* not by type, twice, behind a name, and of another kind */
    EXPECT(!is_sound_with_rows(ROWS("", "", "", "d", "e"), "\0\2\1\3\4"));
    EXPECT(!is_sound_with_rows(ROWS("", "", "c", "d", "e"), "\1\1\2\3\4"));
    EXPECT(!is_sound_with_rows(ROWS("", "", "c", "d", "e"), "\0\1\1\3\4"));
    EXPECT(!is_sound_with_rows(ROWS("a", "", "c", "d", "e"), "\0\1\2\3\4"));
    EXPECT(!is_sound_with_rows(ROWS("", "b", "c", "d", "e"), "\3\0\1\2\4"));
    EXPECT(!is_sound_with_rows(ROWS("", "b", "c", "d", "e"), "\4\0\1\2\3"));
    EXPECT(!is_sound_with_rows(ROWS("", "b", "c", "d", "e"), "\1\2\2\3\4"));
    /* any modes, an application and an end; a byte in the field of a name; an ancestor that is not there */
    EXPECT(is_sound_with_rows(ROWS("", "", "", "d", "e"), "\0\1\2\3\4"));
    size_t row = name(1, 1).one - 1;
    base[row + 18] = 4, base[row + 19] = 0;
    PUT_APPLICATION(1, 1, 3);
    PUT_END(1, 4, 0, 1);
    ANSWERS(MODES("\1", 1), 0, 4, 0, 0);
    ANSWERS(REMOVE_TYPE(1, "d"), 17, 1, 0, 0);
    ANSWERS(REMOVE_NUMBER(1, 1), 17, 3, 0, 0);
    ANSWERS(REMOVE_TYPE(1, "e"), 18, 1, 0, 0);
    ANSWERS(RENAME_NUMBER(1, 1, "unit"), 0, 0, 0, 0);
    ANSWERS(MODES("\1", 1), 0, 4, 0, 0);
    ANSWERS(UNAPPLY(1, "d", "unit"), 0, 0, 0, 0);
    for (size_t n = 2; n <= 16; n++) {
        is_sound_with_rows(ROWS("", "", "", "d", "e"), "\0\1\2\3\4");
        base[row + n] = 'a';
        ANSWERS(name(1, 1), 1, 0, 0, 0);
    }
    is_sound_with_rows(ROWS("", "", "", "d", "e"), "\0\1\2\3\4");
    base[256 + 8 * 1 + 4] = 2, base[256 + 8 * 2 + 4] = 0;
    ANSWERS(DEPTH("\1", 1), 0, 2, 0, 0);
    memmove(base + row + 20, base + row + 40, 3 * 20);
    ANSWERS(DEPTH("\1", 1), 1, 0, 0, 0);
    /* SDS 0 has none */
    fresh();
    memset(base + 1281, 0, 6);
    ANSWERS(name(0, 0), 1, 0, 0, 0);
    EXPECT(is_guarded());
}

/* What is made or imported has all five modes; what is set is set in one SDS, of a pair for both (02, Q-2). */
static void modes_are_set(void)
{
    a_base_with_links();
    ANSWERS(MODES("\0", 0), 0, 31, 31, 0);
    ANSWERS(MODES("\1", FIVE), 0, 31, 31, 0);
    EXPECT(CF_ALL_MODES == (CF_CREATE | CF_DELETE | CF_READ | CF_WRITE | CF_NAVIGATE));
    ANSWERS(SET_MODES(1, "top", 31, 31), 0, 0, 0, 0);
    EXPECT(is_kept());
    ANSWERS(SET_MODES(1, "TOP", CF_CREATE | CF_READ, CF_NAVIGATE), 0, 0, 0, 0);
    ANSWERS(SET_MODES(1, "five", 0, 0), 0, 0, 0, 0);
    ANSWERS(SET_MODES(1, "nine", 0, 31), 0, 0, 0, 0);
    ANSWERS(MODES("\1", TOP), 0, 5, 16, 0);
    ANSWERS(MODES("\2", TOP), 0, 31, 31, 0);
    ANSWERS(MODES("\1", FIVE), 0, 0, 0, 0);
    ANSWERS(MODES("\1", NINE), 0, 0, 31, 0);
    ANSWERS(MODES("\1", LEFT), 0, 31, 31, 0);
    /* a pair by the one name, and by the other */
    ANSWERS(SET_MODES(1, "seven", 3, 4), 0, 0, 0, 0);
    ANSWERS(MODES("\1", SEVEN), 0, 3, 4, 0);
    ANSWERS(MODES("\1", EIGHT), 0, 3, 4, 0);
    ANSWERS(SET_MODES(2, "eight", 8, 20), 0, 0, 0, 0);
    ANSWERS(MODES("\2", SEVEN), 0, 8, 20, 0);
    ANSWERS(MODES("\2", EIGHT), 0, 8, 20, 0);
    ANSWERS(MODES("\1", EIGHT), 0, 3, 4, 0);
    /* the union, in any order, with SDSs that lack the type too */
    ANSWERS(MODES("\1\2", SEVEN), 0, 11, 20, 0);
    ANSWERS(MODES("\2\0\1", EIGHT), 0, 11, 20, 0);
    ANSWERS(MODES("\2\1", NINE), 0, 0, 31, 0);
    /* bytes 18 and 19 of a row, and no others */
    ANSWERS(SET_MODES(1, "eight", 31, 31), 0, 0, 0, 0);
    ANSWERS(SET_MODES(2, "seven", 31, 31), 0, 0, 0, 0);
    ANSWERS(SET_MODES(1, "five", 31, 31), 0, 0, 0, 0);
    ANSWERS(SET_MODES(1, "nine", 31, 31), 0, 0, 0, 0);
    uint8_t *row = before + name(1, TOP).one - 1;
    row[18] = 5;
    row[19] = 16;
    EXPECT(is_kept());
    EXPECT(is_guarded());
}

/* Each set on both sides of 31, and at full width; 19 is tried after 4 and before 6. */
static void modes_refused(void)
{
    static const size_t over[] = {32, 63, 255, 256, 256 + 1, 65536, ((size_t)1 << 32) + 1, SIZE_MAX};
    a_base_with_links();
    ANSWERS(SET_MODES(3, "", 32, 32), 2, 0, 0, 0);
    ANSWERS(SET_MODES(256 + 1, "top", 1, 1), 2, 0, 0, 0);
    ANSWERS(SET_MODES(((size_t)1 << 32) + 1, "top", 1, 1), 2, 0, 0, 0);
    ANSWERS(SET_MODES(0, "", 32, 32), 3, 0, 0, 0);
    ANSWERS(SET_MODES(0, "object", 31, 31), 3, 0, 0, 0);
    ANSWERS(SET_MODES(1, "", 32, 32), 4, 0, 0, 0);
    ANSWERS(SET_MODES(1, "1top", 31, 31), 4, 0, 0, 0);
    for (size_t n = 0; n < sizeof over / sizeof *over; n++) {
        ANSWERS(SET_MODES(1, "top", over[n], 31), 19, 0, 0, 0);
        ANSWERS(SET_MODES(1, "top", 31, over[n]), 19, 0, 0, 0);
        ANSWERS(SET_MODES(1, "none", over[n], over[n]), 19, 0, 0, 0);
    }
    ANSWERS(SET_MODES(1, "none", 31, 31), 6, 0, 0, 0);
    ANSWERS(SET_MODES(2, "low", 0, 0), 6, 0, 0, 0);
    ANSWERS(MODES("\1\1\3", 128), 2, 0, 0, 0);
    ANSWERS(MODES("\1\1", 128), 6, 0, 0, 0);
    ANSWERS(MODES("\2\2", LOW), 6, 0, 0, 0);
    ANSWERS(MODES("", TOP), 6, 0, 0, 0);
    ANSWERS(MODES("\1\2\1", LOW), 8, 0, 0, 0);
    ANSWERS(MODES("\1", 256 + TOP), 6, 0, 0, 0);
    ANSWERS(MODES("\1", ((size_t)1 << 32) + TOP), 6, 0, 0, 0);
    EXPECT(is_kept());
    EXPECT(is_guarded());
}

/* A rename keeps what was; an import has all five, whatever the source has, and so it has where a type was before. */
static void modes_kept_and_given(void)
{
    begin("one", "two");
    IMPORT(1, 0, "object", "", "");
    NEW_OBJECT(1, "unit", "object");
    NEW_PAIR(1, "has", "of", 0, 3);
    ANSWERS(SET_MODES(1, "unit", 1, 2), 0, 0, 0, 0);
    ANSWERS(SET_MODES(1, "of", 4, 8), 0, 0, 0, 0);
    ANSWERS(SET_MODES(1, "object", 0, 0), 0, 0, 0, 0);
    ANSWERS(RENAME(1, "unit", "Aunit"), 0, 0, 0, 0);
    ANSWERS(RENAME(1, "has", "zone"), 0, 0, 0, 0);
    ANSWERS(RENAME(1, "object", "OBJECT"), 0, 0, 0, 0);
    ANSWERS(MODES("\1", 1), 0, 1, 2, 0);
    ANSWERS(MODES("\1", 2), 0, 4, 8, 0);
    ANSWERS(MODES("\1", 3), 0, 4, 8, 0);
    ANSWERS(MODES("\1", 0), 0, 0, 0, 0);
    ANSWERS(IMPORT(2, 1, "object", "", ""), 0, 0, 0, 0);
    ANSWERS(IMPORT(2, 1, "aunit", "", ""), 0, 1, 0, 0);
    ANSWERS(IMPORT(2, 1, "of", "", ""), 0, 3, 2, 0);
    for (size_t type = 0; type < 4; type++)
        ANSWERS(MODES("\2", type), 0, 31, 31, 0);
    ANSWERS(MODES("\1", 2), 0, 4, 8, 0);
    ANSWERS(REMOVE_TYPE(1, "zone"), 0, 2, 0, 0);
    ANSWERS(IMPORT(1, 2, "zone", "", ""), 0, 2, 3, 0);
    ANSWERS(MODES("\1", 2), 0, 31, 31, 0);
    ANSWERS(MODES("\1", 3), 0, 31, 31, 0);
    ANSWERS(MODES("\1", 1), 0, 1, 2, 0);
    EXPECT(is_guarded());
}

/* Whether the base with links is sound with other modes in the rows of two types in an SDS. */
static int is_sound_with_modes(size_t sds, size_t type, const char *modes, size_t other, const char *others)
{
    a_base_with_links();
    size_t row = name(sds, type).one + 17, other_row = name(sds, other).one + 17;
    memcpy(base + row, modes, 2);
    memcpy(base + other_row, others, 2);
    keep();
    cf_answer found = MODES("\0", 0);
    EXPECT(same(found, (cf_answer){0, 31, 31, 0}) || same(found, (cf_answer){1, 0, 0, 0}));
    EXPECT(is_kept());
    return found.no == 0;
}

static void modes_spoiled(void)
{
    EXPECT(is_sound_with_modes(1, TOP, "\0\0", FIVE, "\1\2"));
    EXPECT(is_sound_with_modes(1, NINE, "\x1f\0", LOW, "\0\x1f"));
    EXPECT(!is_sound_with_modes(1, TOP, "\x20\0", FIVE, "\1\2"));
    EXPECT(!is_sound_with_modes(1, TOP, "\0\x20", FIVE, "\1\2"));
    EXPECT(!is_sound_with_modes(1, NINE, "\xff\0", LOW, "\0\0"));
    EXPECT(!is_sound_with_modes(0, 0, "\x1e\x1f", 0, "\x1e\x1f"));
    EXPECT(!is_sound_with_modes(0, 0, "\x1f\0", 0, "\x1f\0"));
    /* a pair alike, and otherwise, in each SDS that has it */
    for (size_t sds = 1; sds < 3; sds++) {
        EXPECT(is_sound_with_modes(sds, SEVEN, "\5\6", EIGHT, "\5\6"));
        EXPECT(!is_sound_with_modes(sds, SEVEN, "\5\6", EIGHT, "\6\5"));
        EXPECT(!is_sound_with_modes(sds, SEVEN, "\x1f\x1f", EIGHT, "\x1f\xf"));
        EXPECT(!is_sound_with_modes(sds, SEVEN, "\x1e\x1f", EIGHT, "\x1f\x1f"));
        EXPECT(!is_sound_with_modes(sds, SEVEN, "\x20\1", EIGHT, "\x20\1"));
    }
    /* a row that is not used */
    a_base_with_links();
    next.presence[18] = 1;
    ANSWERS(MODES("\1", TOP), 1, 0, 0, 0);
    ANSWERS(SET_MODES(1, "top", 1, 1), 1, 0, 0, 0);
    EXPECT(is_guarded());
}

static void a_spoiled_base(void)
{
    fresh();
    base[LENGTH - 1] = 1;
    keep();
    ANSWERS(new_sds("bus"), 1, 0, 0, 0);
    ANSWERS(remove_sds(16), 1, 0, 0, 0);
    ANSWERS(RENAME(0, "object", "object"), 1, 0, 0, 0);
    ANSWERS(REMOVE_NUMBER(16, 128), 1, 0, 0, 0);
    ANSWERS(RENAME_NUMBER(16, 128, ""), 1, 0, 0, 0);
    ANSWERS(SET_MODES(16, "", 32, 32), 1, 0, 0, 0);
    ANSWERS(name(0, 0), 1, 0, 0, 0);
    EXPECT(is_kept());
    ANSWERS(fresh(), 0, 0, 0, 0);
    ANSWERS(cf_name(base, LENGTH - 1, 0, 0), 1, 0, 0, 0);
    EXPECT(is_guarded());
}

static void a_fresh_base_asked(void)
{
    fresh();
    keep();
    LISTS(SCAN_OBJECT("\0", 0, 1), "", 0, 0, 0);
    LISTS(PROFILE("\0", 0), "", 0, 0, 0);
    ANSWERS(DEPTH("\0", 0), 0, 0, 0, 0);
    ANSWERS(DESCENDANT_SET("\0", 0), 0, 0, 0, 0);
    ANSWERS(FIND("\0", "object"), 0, 0, 0, 0);
    ANSWERS(SCAN_LINK("\0", 0, 0), 7, 0, 0, 0);
    EXPECT(is_kept());
}

static void every_descendant(void)
{
    a_base_with_fifo();
    LISTS(SCAN_OBJECT("\1", TEMPLATE, 1), "\4\5", 2, 0, 0);
    LISTS(SCAN_OBJECT("\1", RADIO, 1), "\4\5", 2, 0, 0);
    ANSWERS(DEPTH("\1", FIFO), 0, 3, 0, 0);
    a_base_with_adc();
    LISTS(SCAN_OBJECT("\1", TEMPLATE, 1), "\4\5", 2, 0, 0);
    LISTS(SCAN_OBJECT("\1", RADIO, 1), "\4\5", 2, 0, 0);
    LISTS(SCAN_OBJECT("\1", TEMPLATE, 0), "\5", 1, 0, 0);
    LISTS(SCAN_OBJECT("\0\1", ADC, 3), "\0\1\2\3\5", 5, 0, 0);
    ANSWERS(DEPTH("\1", ADC), 0, 4, 0, 0);
    ANSWERS(DESCENDANT_SET("\1", TEMPLATE), 0, 1 << 4 | 1 << 5, 0, 2);
    ANSWERS(FIND("\1", "adc"), 0, ADC, 0, 0);
    ANSWERS(FIND("\1", "fifo"), 6, 0, 0, 0);
    EXPECT(is_guarded());
}

/* A chain up to the last type number, so that marks stand in both words; its last type has a short way up too. */
static void a_long_chain(void)
{
    begin("one", "two");
    put_presence(1, "object", 0);
    for (uint8_t type = 1; type < 128; type++) {
        char name[] = {'t', (char)('a' + type / 16), (char)('a' + type % 16), 0};
        PUT_TYPE(type, 1, 0, 0, 1, (uint8_t)(type - 1));
        put_presence(1, name, type);
    }
    PUT_TYPE(127, 1, 0, 0, 2, 0, 126);
    keep();
    ANSWERS(DEPTH("\1", 127), 0, 127, 0, 0);
    ANSWERS(DESCENDANT_SET("\1", 0), 0, SIZE_MAX - 1, SIZE_MAX, 127);
    ANSWERS(DESCENDANT_SET("\1", 62), 0, (size_t)1 << 63, SIZE_MAX, 65);
    LISTS(SCAN_OBJECT("\1", 124, 1), "\x7d\x7e\x7f", 3, 0, 0);
    LISTS(SCAN_OBJECT("\1", 3, 3), "\0\1\2", 3, 0, 0);
    EXPECT(is_guarded());
}

static void every_code(void)
{
    a_base_with_links();
    LISTS(SCAN_OBJECT("\1", TOP, 0), "\2\3", 2, 0, 0);
    LISTS(SCAN_OBJECT("\2", TOP, 1), "\2", 1, 0, 0);
    LISTS(SCAN_OBJECT("\1", LOW, 2), "\2\3", 2, 0, 0);
    LISTS(SCAN_OBJECT("\1", LOW, 3), "\0\1\2\3", 4, 0, 0);
    LISTS(SCAN_OBJECT("\1", LOW, 4), "\5", 1, 0, 0);
    LISTS(SCAN_OBJECT("\2", TOP, 4), "", 0, 0, 0);
    LISTS(SCAN_OBJECT("\1", LOW, 5), "\5\6", 2, 0, 0);
    LISTS(SCAN_OBJECT("\1", LOW, 6), "\x9", 1, 0, 0);
    LISTS(SCAN_OBJECT("\0\1\2", LOW, 7), "\7\x8\x9", 3, 0, 0);
    LISTS(SCAN_OBJECT("\2\1", TOP, 8), "\7\x9", 2, 0, 0);
    LISTS(SCAN_OBJECT("\1", LOW, 9), "\x8\x9", 2, 0, 0);
    LISTS(SCAN_LINK("\1", SEVEN, 0), "\2", 1, 0, 0);
    LISTS(SCAN_LINK("\1", SEVEN, 1), "\2\4", 2, 0, 0);
    LISTS(SCAN_LINK("\0\1\2", EIGHT, 2), "\2", 1, 0, 0);
    LISTS(SCAN_LINK("\2\1", SEVEN, 3), "\1\2\3\4", 4, 0, 0);
    LISTS(SCAN_LINK("\2", SEVEN, 3), "\1\2", 2, 0, 0);
    LISTS(SCAN_LINK("\1", NINE, 4), "\5", 1, 0, 0);
    LISTS(SCAN_LINK("\1", SEVEN, 4), "", 0, 0, 0);
    LISTS(PROFILE("\1", LOW), "\0\1\2\3\5\6\7\x9", 4, 2, 2);
    LISTS(PROFILE("\2", LEFT), "\0\1\6\x8", 2, 1, 1);
    EXPECT(is_guarded());
}

static void the_first_listed_has_it(void)
{
    a_base_with_links();
    ANSWERS(FIND("\1\2", "five"), 0, FIVE, 0, 0);
    ANSWERS(FIND("\2\1", "five"), 0, SIX, 0, 0);
    ANSWERS(FIND("\0\1\2", "five"), 0, FIVE, 0, 0);
    ANSWERS(FIND("\2\1", "low"), 0, LOW, 0, 0);
    ANSWERS(FIND("\2", "low"), 6, 0, 0, 0);
    ANSWERS(FIND("\1", "Five"), 0, FIVE, 0, 0);
    ANSWERS(FIND("\2\1", "FIVE"), 0, SIX, 0, 0);
    ANSWERS(FIND("\1", ""), 4, 0, 0, 0);
    ANSWERS(FIND("\1", "5"), 4, 0, 0, 0);
    ANSWERS(FIND("\1", "abcdefghijklmnop"), 6, 0, 0, 0);
    ANSWERS(FIND("\1", "abcdefghijklmnopq"), 4, 0, 0, 0);
    /* A name ends where its length says, whatever comes behind. */
    ANSWERS(cf_find(base, LENGTH, SCHEMA("\1"), (const uint8_t *)"lower", 3), 0, LOW, 0, 0);
    EXPECT(is_kept());
}

/* Each call with all the faults that come after the number too; an SDS twice is 8 only where no lower number holds,
 * and before 15. */
/* Each question with an empty list, and with the SDSs. */
static void an_empty_list_shows_nothing(void)
{
    a_base_with_links();
    output_length = OUTPUT;
    ANSWERS(SCAN_OBJECT("", TOP, 0), 6, 0, 0, 0);
    ANSWERS(SCAN_LINK("", SEVEN, 0), 6, 0, 0, 0);
    ANSWERS(PROFILE("", LOW), 6, 0, 0, 0);
    ANSWERS(FIND("", "object"), 6, 0, 0, 0);
    ANSWERS(DEPTH("", 0), 6, 0, 0, 0);
    ANSWERS(DESCENDANT_SET("", TOP), 6, 0, 0, 0);
    ANSWERS(FIND("", "1object"), 4, 0, 0, 0);
    ANSWERS(SCAN_OBJECT("", TOP, 10), 5, 0, 0, 0);
    ANSWERS(SCAN_LINK("", SEVEN, 5), 5, 0, 0, 0);
    EXPECT(is_kept());
    LISTS(SCAN_OBJECT("\1", TOP, 0), "\2\3", 2, 0, 0);
    LISTS(SCAN_LINK("\1", SEVEN, 0), "\2", 1, 0, 0);
    LISTS(PROFILE("\1", LOW), "\0\1\2\3\5\6\7\x9", 4, 2, 2);
    ANSWERS(FIND("\0", "object"), 0, 0, 0, 0);
    ANSWERS(DEPTH("\0", 0), 0, 0, 0, 0);
    ANSWERS(DESCENDANT_SET("\1", TOP), 0, 1 << 2 | 1 << 3 | 1 << 4, 0, 3);
    EXPECT(is_guarded());
}

static void refusals_in_order(void)
{
    a_base_with_links();
    output_length = 0;
    ANSWERS(SCAN_OBJECT("\1\1\3", 128, 10), 2, 0, 0, 0);
    ANSWERS(SCAN_OBJECT("\x10\1\1", 128, 10), 2, 0, 0, 0);
    ANSWERS(SCAN_OBJECT("\1\1", 128, 10), 5, 0, 0, 0);
    ANSWERS(SCAN_OBJECT("\1\1", 128, 3), 6, 0, 0, 0);
    ANSWERS(SCAN_OBJECT("\2\2", FIVE, 3), 6, 0, 0, 0);
    ANSWERS(SCAN_OBJECT("\1\1", FIVE, 3), 7, 0, 0, 0);
    ANSWERS(SCAN_OBJECT("\1\1", LOW, 3), 8, 0, 0, 0);
    ANSWERS(SCAN_OBJECT("\1\2\1\2\1\2\1\2\1\2\1\2\1\2\1\2\1", LOW, 3), 8, 0, 0, 0);
    ANSWERS(SCAN_OBJECT("\1\2", LOW, 3), 15, 0, 0, 0);
    ANSWERS(SCAN_LINK("\1\1\xff", 128, 5), 2, 0, 0, 0);
    ANSWERS(SCAN_LINK("\1\1", 128, 5), 5, 0, 0, 0);
    ANSWERS(SCAN_LINK("\2\2", NINE, 0), 6, 0, 0, 0);
    ANSWERS(SCAN_LINK("\1\1", TOP, 0), 7, 0, 0, 0);
    ANSWERS(SCAN_LINK("\1\1", NINE, 0), 8, 0, 0, 0);
    ANSWERS(SCAN_LINK("\1", NINE, 0), 15, 0, 0, 0);
    ANSWERS(PROFILE("\1\1\3", 128), 2, 0, 0, 0);
    ANSWERS(PROFILE("\1\1", 128), 6, 0, 0, 0);
    ANSWERS(PROFILE("\1\1", SEVEN), 7, 0, 0, 0);
    ANSWERS(PROFILE("\1\1", LOW), 8, 0, 0, 0);
    ANSWERS(PROFILE("\1", LOW), 15, 0, 0, 0);
    ANSWERS(FIND("\1\1\3", "5"), 2, 0, 0, 0);
    ANSWERS(FIND("\1\1", "5"), 4, 0, 0, 0);
    ANSWERS(FIND("\2\2", "low"), 6, 0, 0, 0);
    ANSWERS(FIND("\1\1", "low"), 8, 0, 0, 0);
    ANSWERS(DEPTH("\1\1\3", 128), 2, 0, 0, 0);
    ANSWERS(DEPTH("\2\2", LOW), 6, 0, 0, 0);
    ANSWERS(DEPTH("\1\1", FIVE), 7, 0, 0, 0);
    ANSWERS(DEPTH("\1\1", LOW), 8, 0, 0, 0);
    ANSWERS(DESCENDANT_SET("\1\1\3", 128), 2, 0, 0, 0);
    ANSWERS(DESCENDANT_SET("\2\2", LOW), 6, 0, 0, 0);
    ANSWERS(DESCENDANT_SET("\1\1", NINE), 7, 0, 0, 0);
    ANSWERS(DESCENDANT_SET("\1\1", LOW), 8, 0, 0, 0);
    EXPECT(is_kept());
}

static void asked_at_full_width(void)
{
    static const size_t added[] = {256, (size_t)1 << 32};
    a_base_with_links();
    output_length = OUTPUT;
    for (size_t n = 0; n < 2; n++) {
        size_t high = added[n];
        ANSWERS(SCAN_OBJECT("\1", high + LOW, 1), 6, 0, 0, 0);
        ANSWERS(SCAN_OBJECT("\1", LOW, high + 1), 5, 0, 0, 0);
        ANSWERS(SCAN_LINK("\1", high + NINE, 1), 6, 0, 0, 0);
        ANSWERS(SCAN_LINK("\1", NINE, high + 1), 5, 0, 0, 0);
        ANSWERS(PROFILE("\1", high + LOW), 6, 0, 0, 0);
        ANSWERS(DEPTH("\1", high + LOW), 6, 0, 0, 0);
        ANSWERS(DESCENDANT_SET("\1", high + LOW), 6, 0, 0, 0);
    }
    EXPECT(is_kept());
}

/* Names of three letters that rise with their numbers. */
static const char *numbered(size_t number)
{
    static char name[4];
    name[0] = (char)('a' + number / 676);
    name[1] = (char)('a' + number / 26 % 26);
    name[2] = (char)('a' + number % 26);
    return name;
}

/* The exchange file (02, Q-3), as docs/FILE.md has it. It lies between guards, and its area has the same byte all over
 * before it is written; there is room for a file that is too long. */
enum { FILE_ROOM = CF_FILE_MOST + 64 };
static uint8_t file_area[GUARD + FILE_ROOM + GUARD];
static uint8_t *const file = file_area + GUARD;
static size_t file_length;

#define WRITE_FILE(room) cf_write_file(base, LENGTH, file, room)
#define READ_FILE() cf_read_file(base, LENGTH, file, file_length)

static void clear_file(void) { memset(file_area, 0xa5, sizeof file_area); }

static void take_file(const void *bytes, size_t length)
{
    clear_file();
    memcpy(file, bytes, length);
    file_length = length;
}

/* Writes the base where there is just room for its file, and gives its length; with a byte less, and with none, it is
 * refused and the output is left as it was. */
static size_t write_base(void)
{
    static uint8_t kept[FILE_ROOM];
    keep();
    clear_file();
    cf_answer answer = WRITE_FILE(FILE_ROOM);
    file_length = answer.one;
    EXPECT(same(answer, (cf_answer){0, file_length, 0, 0}) && file_length >= 53 && file_length <= CF_FILE_MOST);
    if (file_length == 0)
        return 0;
    EXPECT(is_blank(file_area, GUARD) && is_blank(file + file_length, FILE_ROOM - file_length + GUARD));
    memcpy(kept, file, file_length);
    clear_file();
    ANSWERS(WRITE_FILE(0), 15, 0, 0, 0);
    ANSWERS(WRITE_FILE(file_length - 1), 15, 0, 0, 0);
    EXPECT(is_blank(file_area, sizeof file_area));
    ANSWERS(WRITE_FILE(file_length), 0, file_length, 0, 0);
    EXPECT(memcmp(kept, file, file_length) == 0);
    EXPECT(is_blank(file_area, GUARD) && is_blank(file + file_length, FILE_ROOM - file_length + GUARD));
    EXPECT(is_kept());
    return file_length;
}

/* Whether the base, written, spoiled and read in, is as it was, and its file is when it is written again. */
static int goes_round(void)
{
    static uint8_t first[FILE_ROOM], kept[LENGTH];
    size_t length = write_base();
    memcpy(first, file, FILE_ROOM);
    memcpy(kept, base, LENGTH);
    memset(base, 0xa5, LENGTH);
    ANSWERS(READ_FILE(), 0, 0, 0, 0);
    EXPECT(memcmp(first, file, FILE_ROOM) == 0);
    return memcmp(kept, base, LENGTH) == 0 && write_base() == length && memcmp(first, file, length) == 0 && is_guarded();
}

/* Whether the file is refused with that answer, by a base that is sound and by bytes that are none, which are left. */
static int is_refused(size_t no, size_t one)
{
    static uint8_t kept[LENGTH];
    int is_so = 1;
    memcpy(kept, base, LENGTH);
    for (int spoiled = 0; spoiled < 2; spoiled++) {
        if (spoiled)
            memset(base, 0xa5, LENGTH);
        keep();
        is_so = is_so && same(READ_FILE(), (cf_answer){no, one, 0, 0}) && is_kept() && is_guarded();
    }
    memcpy(base, kept, LENGTH);
    return is_so;
}

enum section { IN_SDSS, IN_TYPES, IN_PARENTS, IN_PRESENCES, IN_APPLICATIONS, IN_ENDS };
static const size_t widths[] = {17, 4, 2, 20, 3, 4};

/* The place of an entry, from 0, in the file. */
static size_t place(enum section section, size_t number)
{
    size_t at = 0;
    for (int n = 0; n < (int)section; n++)
        at += 2 + widths[n] * (size_t)(file[at] | file[at + 1] << 8);
    return at + 2 + widths[section] * number;
}

/* One entry more, before that of the number. */
static void put_entry(enum section section, size_t number, const void *entry)
{
    size_t at = place(section, number), count = place(section, 0) - 2;
    memmove(file + at + widths[section], file + at, file_length - at);
    memcpy(file + at, entry, widths[section]);
    file_length += widths[section];
    if (++file[count] == 0)
        file[count + 1]++;
}

static const uint8_t fresh_file[53] = {
    0x01, 0x00,
    0x00, 0x73, 0x79, 0x73, 0x74, 0x65, 0x6d, 0x00, 0x00, 0x00, 0x00, 0x00, 0x00, 0x00, 0x00, 0x00, 0x00,
    0x01, 0x00,
    0x00, 0x01, 0x00, 0x00,
    0x00, 0x00,
    0x01, 0x00,
    0x00, 0x00, 0x6f, 0x62, 0x6a, 0x65, 0x63, 0x74, 0x00, 0x00, 0x00, 0x00, 0x00, 0x00, 0x00, 0x00, 0x00, 0x00, 0x1f, 0x1f,
    0x00, 0x00,
    0x00, 0x00,
};

/* The worked sequence's, entry by entry as docs/FILE.md shows it; examples/sequence.cff has the same bytes. */
static const uint8_t sequence[222] = {
    0x02, 0x00,
    0x00, 0x73, 0x79, 0x73, 0x74, 0x65, 0x6d, 0x00, 0x00, 0x00, 0x00, 0x00, 0x00, 0x00, 0x00, 0x00, 0x00,
    0x01, 0x62, 0x75, 0x73, 0x00, 0x00, 0x00, 0x00, 0x00, 0x00, 0x00, 0x00, 0x00, 0x00, 0x00, 0x00, 0x00,
    0x06, 0x00,
    0x00, 0x01, 0x00, 0x00,
    0x01, 0x01, 0x00, 0x00,
    0x02, 0x01, 0x00, 0x00,
    0x03, 0x01, 0x00, 0x00,
    0x04, 0x01, 0x00, 0x00,
    0x05, 0x01, 0x00, 0x00,
    0x06, 0x00,
    0x01, 0x00,
    0x02, 0x01,
    0x03, 0x01,
    0x04, 0x05,
    0x05, 0x02,
    0x05, 0x03,
    0x07, 0x00,
    0x00, 0x00, 0x6f, 0x62, 0x6a, 0x65, 0x63, 0x74, 0x00, 0x00, 0x00, 0x00, 0x00, 0x00, 0x00, 0x00, 0x00, 0x00, 0x1f, 0x1f,
    0x01, 0x00, 0x6f, 0x62, 0x6a, 0x65, 0x63, 0x74, 0x00, 0x00, 0x00, 0x00, 0x00, 0x00, 0x00, 0x00, 0x00, 0x00, 0x1f, 0x1f,
    0x01, 0x01, 0x75, 0x6e, 0x69, 0x74, 0x00, 0x00, 0x00, 0x00, 0x00, 0x00, 0x00, 0x00, 0x00, 0x00, 0x00, 0x00, 0x1f, 0x1f,
    0x01, 0x02, 0x74, 0x65, 0x6d, 0x70, 0x6c, 0x61, 0x74, 0x65, 0x00, 0x00, 0x00, 0x00, 0x00, 0x00, 0x00, 0x00, 0x1f, 0x1f,
    0x01, 0x03, 0x72, 0x61, 0x64, 0x69, 0x6f, 0x00, 0x00, 0x00, 0x00, 0x00, 0x00, 0x00, 0x00, 0x00, 0x00, 0x00, 0x1f, 0x1f,
    0x01, 0x04, 0x61, 0x64, 0x63, 0x00, 0x00, 0x00, 0x00, 0x00, 0x00, 0x00, 0x00, 0x00, 0x00, 0x00, 0x00, 0x00, 0x1f, 0x1f,
    0x01, 0x05, 0x66, 0x69, 0x66, 0x6f, 0x32, 0x00, 0x00, 0x00, 0x00, 0x00, 0x00, 0x00, 0x00, 0x00, 0x00, 0x00, 0x1f, 0x1f,
    0x00, 0x00,
    0x00, 0x00,
};

/* The base at the end of 01's worked sequence. */
static void the_worked_base(void)
{
    fresh();
    new_sds("bus");
    IMPORT(1, 0, "object", "", "");
    NEW_OBJECT(1, "unit", "object");
    NEW_OBJECT(1, "template", "unit");
    NEW_OBJECT(1, "radio", "unit");
    NEW_OBJECT(1, "fifo", "template radio");
    NEW_OBJECT(1, "fifo2", "radio template");
    REMOVE_TYPE(1, "fifo");
    ANSWERS(NEW_OBJECT(1, "adc", "fifo2"), 0, ADC, 0, 0);
}

static void files_byte_for_byte(void)
{
    fresh();
    EXPECT(write_base() == sizeof fresh_file && memcmp(file, fresh_file, sizeof fresh_file) == 0);
    the_worked_base();
    EXPECT(write_base() == sizeof sequence && memcmp(file, sequence, sizeof sequence) == 0);
    /* the same by other ways: what was there and is gone leaves no trace, and names stand by type */
    NEW_ATTRIBUTE(1, "state", 5);
    REMOVE_TYPE(1, "state");
    RENAME(1, "unit", "zone");
    RENAME(1, "zone", "unit");
    EXPECT(write_base() == sizeof sequence && memcmp(file, sequence, sizeof sequence) == 0);
    /* read over a base that holds more */
    a_base_with_links();
    take_file(fresh_file, sizeof fresh_file);
    ANSWERS(READ_FILE(), 0, 0, 0, 0);
    memcpy(before, base, LENGTH);
    fresh();
    EXPECT(memcmp(before, base, LENGTH) == 0);
    EXPECT(is_guarded());
}

static void files_go_round(void)
{
    fresh();
    EXPECT(goes_round());
    the_worked_base();
    EXPECT(goes_round());
    a_base_with_links();
    EXPECT(goes_round());
    /* types of 0 in every field that can be, and modes */
    SET_MODES(1, "top", 0, 0);
    SET_MODES(2, "eight", 3, 16);
    EXPECT(goes_round());
    ANSWERS(MODES("\2", SEVEN), 0, 3, 16, 0);
    /* nameless presences, and names by type in the file and by lowered bytes in the base */
    a_base_with_adc();
    IMPORT(2, 1, "adc", "Zig", "");
    EXPECT(goes_round());
    EXPECT(is_nameless(2, UNIT) && is_named(2, ADC, "Zig"));
    RENAME_NUMBER(2, 0, "ZIG_");
    RENAME_NUMBER(2, FIFO2, "aa");
    EXPECT(goes_round());
    a_base_with_names(by_lowered);
    EXPECT(goes_round());
    /* calls go on from what was read in */
    take_file(sequence, sizeof sequence);
    ANSWERS(READ_FILE(), 0, 0, 0, 0);
    ANSWERS(FIND("\1", "ADC"), 0, ADC, 0, 0);
    ANSWERS(DEPTH("\1", ADC), 0, 4, 0, 0);
    ANSWERS(REMOVE_TYPE(1, "template"), 16, FIFO2, 0, 0);
    ANSWERS(NEW_OBJECT(1, "dac", "adc"), 0, 6, 0, 0);
    EXPECT(is_guarded());
}

/* Every start of a file tells its own length, and a byte behind a file that of the file. */
static void files_cut_short(void)
{
    the_worked_base();
    for (size_t length = 0; length < sizeof sequence; length++) {
        take_file(sequence, length);
        EXPECT(is_refused(20, length));
    }
    for (int last = 0; last < 2; last++) {
        take_file(sequence, sizeof sequence);
        file[file_length++] = (uint8_t)(last * 0xff);
        EXPECT(is_refused(20, sizeof sequence));
        file[file_length++] = 0;
        EXPECT(is_refused(20, sizeof sequence));
    }
    a_base_with_links();
    size_t whole = write_base();
    for (file_length = 0; file_length < whole; file_length++)
        EXPECT(is_refused(20, file_length));
    file_length++;
    EXPECT(is_refused(20, whole));
}

/* The worked file with other bytes at a place. */
#define WITH(at, bytes) (take_file(sequence, sizeof sequence), (void)memcpy(file + (at), bytes, sizeof(bytes) - 1))

static void files_out_of_order(void)
{
    the_worked_base();
    WITH(66, "\0");
    EXPECT(is_refused(20, 66));
    WITH(66, "\3");
    EXPECT(is_refused(20, 69));
    WITH(158, "\2");
    EXPECT(is_refused(20, 178));
    /* a field is not looked at, 20 comes before 21 */
    WITH(65, "\xff");
    EXPECT(is_refused(21, 0));
    file_length--;
    EXPECT(is_refused(20, sizeof sequence - 1));
    /* enough strings must stand above an entry for those to come */
    WITH(70, "\xff\xfd");
    EXPECT(is_refused(20, 72));
    WITH(70, "\xff\xfe");
    EXPECT(is_refused(20, 71));
    WITH(72, "\xff\xfe\xff\xff");
    EXPECT(is_refused(21, 0));
    WITH(72, "\xff\xff\xff\xff");
    EXPECT(is_refused(20, 73));
    WITH(74, "\xff\xff");
    EXPECT(is_refused(21, 0));
    WITH(198, "\xff\xff\xff\xff\xff\xff\xff\xff\xff\xff\xff\xff\xff\xff\xff\xff\xff\xff\xff\xff");
    EXPECT(is_refused(21, 0));
    WITH(178, "\xff\xff\xff\xff\xff\xff\xff\xff\xff\xff\xff\xff\xff\xff\xff\xff\xff\xff\xff\xff");
    EXPECT(is_refused(20, 197));
    WITH(178, "\xff\xff\xff\xff\xff\xff\xff\xff\xff\xff\xff\xff\xff\xff\xff\xff\xff\xff\xff\xfe");
    EXPECT(is_refused(20, 198));
    /* 65,535 parents: the first is 00 00 or 00 01 */
    take_file(fresh_file, 25);
    file_length = 29;
    memcpy(file + 25, "\xff\xff\0\1", 4);
    EXPECT(is_refused(20, 29));
    memcpy(file + 25, "\xff\xff\0\2", 4);
    EXPECT(is_refused(20, 28));
    memcpy(file + 25, "\xff\xff\1\0", 4);
    EXPECT(is_refused(20, 27));
    memcpy(file + 25, "\xfe\xff\0\2", 4);
    EXPECT(is_refused(20, 29));
    /* an entry that comes twice, in each section: the second is wrong at its last byte */
    a_base_with_links();
    for (int section = IN_SDSS; section <= IN_ENDS; section++) {
        uint8_t entry[20];
        write_base();
        memcpy(entry, file + place((enum section)section, 1), widths[section]);
        put_entry((enum section)section, 1, entry);
        EXPECT(is_refused(20, place((enum section)section, 3) - 1));
    }
}

/* Well formed, and written by no sound base. */
static void files_not_sound(void)
{
    /* one name in two spellings, of types and of SDSs; another spelling in SDS 0 */
    the_worked_base();
    WITH(120, "Adc\0");
    EXPECT(is_refused(21, 0));
    WITH(20, "SYSTEM");
    EXPECT(is_refused(21, 0));
    WITH(3, "System");
    EXPECT(is_refused(21, 0));
    WITH(80, "Object");
    EXPECT(is_refused(21, 0));
    WITH(100, "Object");
    ANSWERS(READ_FILE(), 0, 0, 0, 0);
    EXPECT(is_named(1, 0, "Object"));
    /* two SDSs and two types of one number, with other bytes behind it */
    take_file(sequence, sizeof sequence);
    put_entry(IN_SDSS, 2, "\1car\0\0\0\0\0\0\0\0\0\0\0\0\0");
    EXPECT(is_refused(21, 0));
    take_file(sequence, sizeof sequence);
    put_entry(IN_TYPES, 6, "\5\2\0\0");
    EXPECT(is_refused(21, 0));
    /* its own parent, its own ancestor, a parent for type 0; four parents, and five */
    WITH(64, "\1\1");
    EXPECT(is_refused(21, 0));
    take_file(sequence, sizeof sequence);
    put_entry(IN_PARENTS, 6, "\5\4");
    EXPECT(is_refused(21, 0));
    take_file(sequence, sizeof sequence);
    put_entry(IN_PARENTS, 0, "\0\0");
    EXPECT(is_refused(21, 0));
    take_file(sequence, sizeof sequence);
    put_entry(IN_PARENTS, 3, "\4\0");
    put_entry(IN_PARENTS, 4, "\4\1");
    put_entry(IN_PARENTS, 5, "\4\2");
    ANSWERS(READ_FILE(), 0, 0, 0, 0);
    put_entry(IN_PARENTS, 6, "\4\3");
    EXPECT(is_refused(21, 0));
    /* a type that is nowhere, and an SDS that is not there */
    take_file(sequence, sizeof sequence);
    put_entry(IN_TYPES, 6, "\6\2\0\0");
    EXPECT(is_refused(21, 0));
    put_entry(IN_PRESENCES, 7, "\1\6state\0\0\0\0\0\0\0\0\0\0\0\x1f\x1f");
    ANSWERS(READ_FILE(), 0, 0, 0, 0);
    file[place(IN_PRESENCES, 7)] = 2;
    EXPECT(is_refused(21, 0));
    /* a byte behind the zeros of a name, a mode that is none, a field that the kind lacks */
    WITH(135, "x");
    EXPECT(is_refused(21, 0));
    WITH(136, "\x20");
    EXPECT(is_refused(21, 0));
    WITH(136, "\0\0");
    ANSWERS(READ_FILE(), 0, 0, 0, 0);
    ANSWERS(MODES("\1", UNIT), 0, 0, 0, 0);
    WITH(61, "\1");
    EXPECT(is_refused(21, 0));
    /* blank: an object type may be, no attribute type, and none in SDS 0 */
    a_base_with_links();
    write_base();
    memset(file + place(IN_PRESENCES, 1 + LEFT) + 2, 0, 16);
    ANSWERS(READ_FILE(), 0, 0, 0, 0);
    EXPECT(is_nameless(1, LEFT) && is_named(2, LEFT, "left"));
    memset(file + place(IN_PRESENCES, 1 + FIVE) + 2, 0, 16);
    EXPECT(is_refused(21, 0));
    take_file(fresh_file, sizeof fresh_file);
    memset(file + place(IN_PRESENCES, 0) + 2, 0, 16);
    EXPECT(is_refused(21, 0));
    /* a pair with other modes, and an end with no mirror */
    a_base_with_links();
    write_base();
    file[place(IN_PRESENCES, 1 + SEVEN) + 18] = 1;
    EXPECT(is_refused(21, 0));
    file[place(IN_PRESENCES, 1 + EIGHT) + 18] = 1;
    ANSWERS(READ_FILE(), 0, 0, 0, 0);
    put_entry(IN_ENDS, 1, ((uint8_t[]){1, SEVEN, 1, TOP}));
    EXPECT(is_refused(21, 0));
    put_entry(IN_ENDS, 2, ((uint8_t[]){1, EIGHT, 0, TOP}));
    ANSWERS(READ_FILE(), 0, 0, 0, 0);
    EXPECT(is_guarded());
}

/* The longest file: every table full, and as many parents as there can be beside an attribute type and a link type. */
static void the_longest_base(void)
{
    fresh();
    for (size_t sds = 1; sds < CF_SDSS; sds++)
        new_sds(numbered(sds));
    IMPORT(1, 0, "object", "", "");
    for (size_t type = 1; type < 126; type++) {
        char name[4], parents[20] = "object";
        if (type > 1)
            strcpy(parents, "object ");
        for (size_t parent = type < 5 ? 1 : type - 3; parent < type; parent++) {
            strcat(parents, numbered(parent));
            if (parent + 1 < type)
                strcat(parents, " ");
        }
        memcpy(name, numbered(type), 4);
        ANSWERS(NEW_OBJECT(1, name, parents), 0, type, 0, 0);
    }
    ANSWERS(NEW_ATTRIBUTE(1, numbered(126), 5), 0, 126, 0, 0);
    ANSWERS(NEW_DESIGNATION(1, numbered(127)), 0, 127, 0, 0);
    for (size_t sds = 2; sds < 5; sds++) {
        IMPORT(sds, 0, "object", "", "");
        for (size_t type = 127; type > 125; type--)
            IMPORT(sds, 1, numbered(type), "", "");
        for (size_t type = 1; type < (sds < 4 ? 126 : 125); type++)
            ANSWERS(IMPORT(sds, 1, numbered(type), "", ""), 0, type, 0, 0);
    }
    for (size_t made = 0; made < CF_APPLICATIONS; made++) {
        char attribute[4];
        memcpy(attribute, numbered(126), 4);
        ANSWERS(APPLY(1 + made / 125, attribute, numbered(1 + made % 125)), 0, 0, 0, 0);
    }
    for (size_t made = 0; made < CF_ENDS; made += 2) {
        char link[4];
        memcpy(link, numbered(127), 4);
        ANSWERS(APPLY_LINK(1 + made / 250, link, numbered(1 + made / 2 % 125)), 0, 0, 0, 0);
        ANSWERS(ADD_DESTINATION(1 + made / 250, link, numbered(1 + made / 2 % 125)), 0, 0, 0, 0);
    }
}

static void files_at_the_limits(void)
{
    EXPECT(cf_file_most() == CF_FILE_MOST && CF_FILE_MOST == 14876);
    the_longest_base();
    EXPECT(IMPORT(4, 1, numbered(125), "", "").no == CF_FULL);
    EXPECT(write_base() == 14840);
    EXPECT(goes_round());
    /* one more presence, application or end is over a limit, and nothing else is wrong */
    put_entry(IN_PRESENCES, 1 + 128 + 128 + 128 + 125, "\4\x7dxxx\0\0\0\0\0\0\0\0\0\0\0\0\0\x1f\x1f");
    EXPECT(is_refused(21, 0));
    write_base();
    put_entry(IN_APPLICATIONS, 256, "\4\1\x7e");
    EXPECT(is_refused(21, 0));
    write_base();
    put_entry(IN_ENDS, 512, "\4\x7f\0\1");
    EXPECT(is_refused(21, 0));
    /* more SDSs than there can be; and a well-formed file is longer than any that is accepted */
    write_base();
    put_entry(IN_SDSS, 16, "\x10more\0\0\0\0\0\0\0\0\0\0\0\0");
    EXPECT(is_refused(21, 0));
    put_entry(IN_SDSS, 17, "\x10mores\0\0\0\0\0\0\0\0\0\0\0");
    put_entry(IN_SDSS, 18, "\xff\0\0\0\0\0\0\0\0\0\0\0\0\0\0\0\0");
    EXPECT(file_length > CF_FILE_MOST);
    EXPECT(is_refused(21, 0));
    file_length--;
    EXPECT(is_refused(20, file_length));
}

/* 1 comes before 20, and before 15; what a base holds is nothing to a read. */
static void files_and_lengths_of_bases(void)
{
    the_worked_base();
    take_file(sequence, sizeof sequence);
    keep();
    ANSWERS(cf_read_file(base, LENGTH - 1, file, file_length), 1, 0, 0, 0);
    ANSWERS(cf_read_file(base, 0, file, file_length), 1, 0, 0, 0);
    ANSWERS(cf_read_file(area, LENGTH + 1, file, file_length), 1, 0, 0, 0);
    ANSWERS(cf_read_file(base, LENGTH - 1, file, 0), 1, 0, 0, 0);
    ANSWERS(cf_write_file(base, LENGTH - 1, file, FILE_ROOM), 1, 0, 0, 0);
    ANSWERS(cf_write_file(area, LENGTH + 1, file, 0), 1, 0, 0, 0);
    base[LENGTH - 1] = before[LENGTH - 1] = 1;
    ANSWERS(WRITE_FILE(FILE_ROOM), 1, 0, 0, 0);
    ANSWERS(WRITE_FILE(0), 1, 0, 0, 0);
    EXPECT(is_kept() && is_guarded());
    EXPECT(memcmp(file, sequence, sizeof sequence) == 0 && is_blank(file + file_length, FILE_ROOM - file_length + GUARD));
    ANSWERS(READ_FILE(), 0, 0, 0, 0);
    base[LENGTH - 1] = before[LENGTH - 1] = 0;
    EXPECT(is_kept() && is_guarded());
}

/* As many things of each kind as the header says, and not one more. */
static void the_limits(void)
{
    size_t made;
    EXPECT(cf_base_length() == CF_BASE_LENGTH);
    fresh();
    for (made = 1; new_sds(numbered(made)).no == CF_DONE; made++)
        ;
    EXPECT(made == CF_SDSS && new_sds("more").no == CF_FULL);
    for (made = 1; NEW_ATTRIBUTE(1, numbered(made), 0).no == CF_DONE; made++)
        ;
    EXPECT(made == CF_TYPES && NEW_ATTRIBUTE(1, "more", 0).no == CF_FULL);
    /* SDS 0 and SDS 1 have what is made so far */
    size_t target = 2, type = 1;
    for (; IMPORT(target, 1, numbered(type), "", "").no == CF_DONE; made++)
        if (++type == CF_TYPES)
            target++, type = 1;
    EXPECT(made == CF_PRESENCES && IMPORT(target, 1, numbered(type), "", "").no == CF_FULL);

    /* Ancestors count: with two places free a type and two above it have no room, with three they have. */
    fresh();
    for (made = 1; new_sds(numbered(made)).no == CF_DONE; made++)
        ;
    IMPORT(1, 0, "object", "", "");
    NEW_OBJECT(1, "unit", "object");
    NEW_OBJECT(1, "leaf", "unit");
    for (type = 1; type < 100; type++)
        NEW_ATTRIBUTE(1, numbered(type), 0);
    for (made = 103, target = 2, type = 1; made < CF_PRESENCES - 2; made++) {
        ANSWERS(IMPORT(target, 1, numbered(type), "", ""), 0, type + 2, 0, 0);
        if (++type == 100)
            target++, type = 1;
    }
    keep();
    ANSWERS(IMPORT(15, 1, "leaf", "", ""), 14, 0, 0, 0);
    EXPECT(is_kept());
    ANSWERS(REMOVE_NUMBER(2, 3), 0, 3, 0, 0);
    ANSWERS(IMPORT(15, 1, "leaf", "", ""), 0, 2, 0, 0);
    EXPECT(is_nameless(15, 0) && is_nameless(15, 1) && is_named(15, 2, "leaf"));
    ANSWERS(IMPORT(2, 1, numbered(1), "", ""), 14, 0, 0, 0);

    fresh();
    new_sds("bus");
    IMPORT(1, 0, "object", "", "");
    for (size_t link = 0; link < 32; link++)
        NEW_DESIGNATION(1, numbered(link));
    for (size_t object = 32; object < 64; object++)
        NEW_OBJECT(1, numbered(object), "object");
    for (size_t attribute = 64; attribute < 80; attribute++)
        NEW_ATTRIBUTE(1, numbered(attribute), 0);
    for (made = 0; made < CF_APPLICATIONS; made++) {
        char attribute[4];
        memcpy(attribute, numbered(64 + made % 16), 4);
        ANSWERS(APPLY(1, attribute, numbered(made / 16)), 0, 0, 0, 0);
    }
    EXPECT(APPLY(1, "acm", "object").no == CF_FULL);
    for (made = 0; made < CF_ENDS; made++) {
        char link[4];
        memcpy(link, numbered(made % 32), 4);
        ANSWERS(APPLY_LINK(1, link, numbered(32 + made / 32)), 0, 0, 0, 0);
    }
    EXPECT(APPLY_LINK(1, "aaa", "object").no == CF_FULL);
    EXPECT(NEW_OBJECT(1, "few", "abg abh abi abj").no == CF_DONE && CF_PARENTS == 4);
    EXPECT(NEW_OBJECT(1, "many", "abg abh abi abj abk").no == CF_UNKNOWN);
    EXPECT(cf_new_sds(base, LENGTH, (const uint8_t *)"abcdefghijklmnopq", CF_NAME_LENGTH).no == CF_DONE);
    EXPECT(cf_new_sds(base, LENGTH, (const uint8_t *)"qbcdefghijklmnopq", CF_NAME_LENGTH + 1).no == CF_MALFORMED);
}

/* Each number has words of its own. */
static void words_for_numbers(void)
{
    for (size_t no = 0; no <= CF_FILE_NOT_SOUND; no++) {
        EXPECT(strcmp(cf_words(no), "no such number") != 0);
        for (size_t other = 0; other < no; other++)
            EXPECT(strcmp(cf_words(no), cf_words(other)) != 0);
    }
    EXPECT(strcmp(cf_words(CF_FILE_NOT_SOUND + 1), "no such number") == 0);
    EXPECT(strcmp(cf_words(SIZE_MAX), "no such number") == 0);
}

/* For every slice of every function: NULL with length 0 does what any other pointer with length 0 does. `none` stands
 * for a slice that is read, `room` for one that may be written. */
static const uint8_t *none;
static uint8_t *room;

static void point(int null)
{
    static uint8_t somewhere[1];
    none = null ? NULL : somewhere;
    room = null ? NULL : somewhere;
    memcpy(base, before, LENGTH);
}

#define ALIKE(call) \
    do { \
        static uint8_t after[LENGTH]; \
        point(0); \
        cf_answer expected = call; \
        memcpy(after, base, LENGTH); \
        point(1); \
        expect(__LINE__, #call " with NULL", same(call, expected) && memcmp(after, base, LENGTH) == 0); \
    } while (0)

static void null_with_length_0(void)
{
    a_base_with_links();
    ALIKE(cf_fresh(room, 0));
    ALIKE(cf_new_sds(room, 0, TEXT("bus")));
    ALIKE(cf_remove_sds(room, 0, 1));
    ALIKE(cf_new_object(room, 0, 1, TEXT("unit"), TEXT("top")));
    ALIKE(cf_new_attribute(room, 0, 1, TEXT("unit"), 0));
    ALIKE(cf_new_designation(room, 0, 1, TEXT("unit")));
    ALIKE(cf_new_pair(room, 0, 1, TEXT("unit"), TEXT("of"), 0, 0));
    ALIKE(cf_import(room, 0, 2, 1, TEXT("nine"), TEXT("ten"), TEXT("")));
    ALIKE(cf_apply(room, 0, 1, TEXT("five"), TEXT("top")));
    ALIKE(cf_unapply(room, 0, 1, TEXT("five"), TEXT("low")));
    ALIKE(cf_apply_link(room, 0, 1, TEXT("nine"), TEXT("top")));
    ALIKE(cf_unapply_link(room, 0, 1, TEXT("nine"), TEXT("low")));
    ALIKE(cf_add_destination(room, 0, 1, TEXT("nine"), TEXT("low")));
    ALIKE(cf_remove_destination(room, 0, 1, TEXT("nine"), TEXT("top")));
    ALIKE(cf_remove_type(room, 0, 1, TEXT("six")));
    ALIKE(cf_remove_number(room, 0, 1, SIX));
    ALIKE(cf_rename(room, 0, 1, TEXT("six"), TEXT("ten")));
    ALIKE(cf_rename_number(room, 0, 1, SIX, TEXT("ten")));
    ALIKE(cf_set_modes(room, 0, 1, TEXT("six"), 1, 2));
    ALIKE(cf_name(none, 0, 1, TOP));
    ALIKE(cf_scan_object(none, 0, SCHEMA("\1"), TOP, 0, output, OUTPUT));
    ALIKE(cf_scan_link(none, 0, SCHEMA("\1"), NINE, 0, output, OUTPUT));
    ALIKE(cf_profile(none, 0, SCHEMA("\1"), TOP, output, OUTPUT));
    ALIKE(cf_find(none, 0, SCHEMA("\1"), TEXT("top")));
    ALIKE(cf_depth(none, 0, SCHEMA("\1"), TOP));
    ALIKE(cf_descendant_set(none, 0, SCHEMA("\1"), TOP));
    ALIKE(cf_modes(none, 0, SCHEMA("\1"), TOP));
    ALIKE(cf_write_file(none, 0, file, FILE_ROOM));
    ALIKE(cf_read_file(room, 0, sequence, sizeof sequence));

    ALIKE(cf_new_sds(base, LENGTH, none, 0));
    ALIKE(cf_new_object(base, LENGTH, 1, none, 0, TEXT("top")));
    ALIKE(cf_new_object(base, LENGTH, 1, TEXT("unit"), none, 0));
    ALIKE(cf_new_attribute(base, LENGTH, 1, none, 0, 0));
    ALIKE(cf_new_designation(base, LENGTH, 1, none, 0));
    ALIKE(cf_new_pair(base, LENGTH, 1, none, 0, TEXT("of"), 0, 0));
    ALIKE(cf_new_pair(base, LENGTH, 1, TEXT("has"), none, 0, 0, 0));
    ALIKE(cf_import(base, LENGTH, 2, 1, none, 0, TEXT("ten"), TEXT("")));
    ALIKE(cf_import(base, LENGTH, 2, 1, TEXT("nine"), none, 0, TEXT("")));
    ALIKE(cf_import(base, LENGTH, 2, 1, TEXT("nine"), TEXT("ten"), none, 0));
    ALIKE(cf_import(base, LENGTH, 2, 1, TEXT("nine"), none, 0, none, 0));
    ALIKE(cf_apply(base, LENGTH, 1, none, 0, TEXT("top")));
    ALIKE(cf_apply(base, LENGTH, 1, TEXT("five"), none, 0));
    ALIKE(cf_unapply(base, LENGTH, 1, none, 0, TEXT("low")));
    ALIKE(cf_unapply(base, LENGTH, 1, TEXT("five"), none, 0));
    ALIKE(cf_apply_link(base, LENGTH, 1, none, 0, TEXT("top")));
    ALIKE(cf_apply_link(base, LENGTH, 1, TEXT("nine"), none, 0));
    ALIKE(cf_unapply_link(base, LENGTH, 1, none, 0, TEXT("low")));
    ALIKE(cf_unapply_link(base, LENGTH, 1, TEXT("nine"), none, 0));
    ALIKE(cf_add_destination(base, LENGTH, 1, none, 0, TEXT("low")));
    ALIKE(cf_add_destination(base, LENGTH, 1, TEXT("nine"), none, 0));
    ALIKE(cf_remove_destination(base, LENGTH, 1, none, 0, TEXT("top")));
    ALIKE(cf_remove_destination(base, LENGTH, 1, TEXT("nine"), none, 0));
    ALIKE(cf_remove_type(base, LENGTH, 1, none, 0));
    ALIKE(cf_rename(base, LENGTH, 1, none, 0, TEXT("ten")));
    ALIKE(cf_rename(base, LENGTH, 1, TEXT("six"), none, 0));
    ALIKE(cf_rename_number(base, LENGTH, 1, SIX, none, 0));
    ALIKE(cf_set_modes(base, LENGTH, 1, none, 0, 1, 2));
    ALIKE(cf_find(base, LENGTH, SCHEMA("\1"), none, 0));

    /* an empty list of SDSs; and an output of length 0, for lists that have entries and for one that has none */
    ALIKE(cf_scan_object(base, LENGTH, none, 0, TOP, 0, output, OUTPUT));
    ALIKE(cf_scan_object(base, LENGTH, SCHEMA("\1"), TOP, 0, room, 0));
    ALIKE(cf_scan_object(base, LENGTH, SCHEMA("\2"), TOP, 4, room, 0));
    ALIKE(cf_scan_link(base, LENGTH, none, 0, NINE, 0, output, OUTPUT));
    ALIKE(cf_scan_link(base, LENGTH, SCHEMA("\1"), NINE, 0, room, 0));
    ALIKE(cf_scan_link(base, LENGTH, SCHEMA("\1"), SEVEN, 4, room, 0));
    ALIKE(cf_profile(base, LENGTH, none, 0, TOP, output, OUTPUT));
    ALIKE(cf_profile(base, LENGTH, SCHEMA("\1"), TOP, room, 0));
    ALIKE(cf_profile(base, LENGTH, SCHEMA("\0"), 0, room, 0));
    ALIKE(cf_find(base, LENGTH, none, 0, TEXT("top")));
    ALIKE(cf_depth(base, LENGTH, none, 0, TOP));
    ALIKE(cf_descendant_set(base, LENGTH, none, 0, TOP));
    ALIKE(cf_modes(base, LENGTH, none, 0, TOP));

    /* a file of no bytes, and no room for one */
    ALIKE(cf_read_file(base, LENGTH, none, 0));
    ALIKE(cf_write_file(base, LENGTH, room, 0));
    EXPECT(is_guarded());
}

static void a_spoiled_base_asked(void)
{
    a_base_with_links();
    /* A type that is its own parent. */
    base[256 + 8 * TOP + 4] = TOP;
    keep();
    output_length = OUTPUT;
    ANSWERS(SCAN_OBJECT("\x10", LOW, 10), 1, 0, 0, 0);
    ANSWERS(SCAN_LINK("\1", NINE, 0), 1, 0, 0, 0);
    ANSWERS(PROFILE("\1", LOW), 1, 0, 0, 0);
    ANSWERS(FIND("\1", "low"), 1, 0, 0, 0);
    ANSWERS(DEPTH("\1", LOW), 1, 0, 0, 0);
    ANSWERS(DESCENDANT_SET("\1", LOW), 1, 0, 0, 0);
    ANSWERS(MODES("\x10", LOW), 1, 0, 0, 0);
    EXPECT(is_kept() && is_guarded());
}

int main(void)
{
    a_fresh_base();
    names_of_sdss();
    sdss_come_and_go();
    numbers_at_full_width();
    name_of_a_type();
    another_name();
    new_types();
    both_ends();
    the_auditors_case();
    parents();
    pairs();
    sdss_in_other_spellings();
    types_in_other_spellings();
    another_spelling();
    imports_in_other_spellings();
    rows_by_lowered_names();
    spellings_spoiled();
    what_holds_a_type();
    what_holds_an_sds();
    ancestors_come_along();
    named_by_number();
    removed_by_number();
    nameless_rows_spoiled();
    modes_are_set();
    modes_refused();
    modes_kept_and_given();
    modes_spoiled();
    a_spoiled_base();
    a_fresh_base_asked();
    every_descendant();
    a_long_chain();
    every_code();
    the_first_listed_has_it();
    an_empty_list_shows_nothing();
    refusals_in_order();
    asked_at_full_width();
    a_spoiled_base_asked();
    files_byte_for_byte();
    files_go_round();
    files_cut_short();
    files_out_of_order();
    files_not_sound();
    files_at_the_limits();
    files_and_lengths_of_bases();
    the_limits();
    words_for_numbers();
    null_with_length_0();
    printf("c: %u passed, %u failed\n", passed, failed);
    return failed == 0 ? 0 : 1;
}
