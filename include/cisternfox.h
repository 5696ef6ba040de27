/* A keeper of schema definition sets (SDSs) over one lent base of bytes.
 *
 * Every function takes every input, a base with spoiled bytes included, and ends in an answer or a numbered refusal. A
 * refusal leaves all that was lent byte for byte as it was. Where several numbers would apply, the first of them is told,
 * in the order 1, 20, 21, 2 to 5, 19, 6 to 12, 16, 17, 18, 13, 14, 15. Numbers are tested at their full width. Nothing is
 * kept between calls, and nothing is allocated.
 *
 * What the host owes. A pointer of a length above 0 points to so many bytes; one of length 0 may be NULL. None needs to
 * be aligned. What a call may write, a base or an output, overlaps nothing else that is lent, and no other thread reads
 * or writes it while the call runs. A call that only asks writes no base, so any number of them may run at once on one
 * base, each with an output of its own.
 *
 * Sound is not unspoiled. 1 tells that bytes are no base; but a byte that changes in storage can make another base that
 * is sound, say one with another letter in a name. A host that stores bases keeps a checksum with each.
 *
 * Names of SDSs and of types are 1 to 16 bytes, letters A to Z and a to z, digits and underscores, the first a letter.
 * They have a length and no byte 0 behind them. Case is ignored: Radio and radio are one name, wherever names are looked
 * for or compared. The spelling given is kept, and shown by cf_name. An empty name is malformed too, but for the new names
 * of cf_import. An SDS has a number from 0 to 15, a type one from 0 to 127.
 *
 * A type that an SDS holds has a local name there, but that an object type can be nameless: so are the ancestors that
 * cf_import brings. A name never means a nameless type, and two types of an SDS may both have none. Such a type is
 * listed, asked about and counted as any other, and holds what it would hold with a name; cf_rename_number gives it one,
 * and cf_remove_number takes it away. */
#ifndef CISTERNFOX_H
#define CISTERNFOX_H

#include <stddef.h>
#include <stdint.h>

#define CF_VERSION "0.7.2"

/* What a base has room for, and its length in bytes. tests/c/test.c holds these to the library. */
#define CF_BASE_LENGTH 14336
#define CF_SDSS 16
#define CF_TYPES 128
#define CF_PRESENCES 512
#define CF_APPLICATIONS 256
#define CF_ENDS 512
#define CF_PARENTS 4
#define CF_NAME_LENGTH 16

/* What may be done through an SDS with a type that it holds. A set of modes is the sum of those in it, so 0 is the empty
 * one. The keeper keeps and tells two sets for each type in an SDS, usage and definition; they bar no call of its own. */
enum cf_mode {
    CF_CREATE = 1,
    CF_DELETE = 2,
    CF_READ = 4,
    CF_WRITE = 8,
    CF_NAVIGATE = 16,
    CF_ALL_MODES = 31
};

/* So many bytes of output are enough for every list: an entry has two, a list has each type once, and the three lists
 * of a profile are of three kinds of types. */
#define CF_OUTPUT_LENGTH (2 * CF_TYPES)

/* So many bytes are enough for the exchange file of every base, and no longer file is read in. */
#define CF_FILE_MOST 14876

/* What `no` in an answer says. A call's own comment says which of these it can answer, and what each means there. */
enum cf_no {
    CF_DONE = 0,
    CF_NOT_SOUND = 1,       /* the base is not sound; of cf_fresh and cf_read_file: its length is wrong */
    CF_NO_SDS = 2,          /* no SDS has that number */
    CF_SYSTEM = 3,          /* SDS 0, "system", never changes */
    CF_MALFORMED = 4,       /* a name is malformed */
    CF_UNKNOWN = 5,         /* a value kind, a category or a code is unknown, both categories are implicit, or the
                               parents are not 1 to 4 */
    CF_NO_TYPE = 6,         /* no type bears the name there, or the type is not there, or not visible */
    CF_WRONG_KIND = 7,      /* a type is of the wrong kind, or has no reverse to be named */
    CF_TWICE = 8,           /* a parent is named twice, or an SDS is listed twice */
    CF_ALREADY = 9,         /* it is there, applied or that end already */
    CF_PARENT_MISSING = 10, /* reserved: no call answers it, since cf_import brings the ancestors */
    CF_TAKEN = 11,          /* the name is taken, or the two names of a call are equal */
    CF_IN_USE = 12,         /* the SDS still holds a type; one: the lowest */
    CF_NOT_THERE = 13,      /* there is no such application or end to take away */
    CF_FULL = 14,           /* there is no room in the base */
    CF_OUTPUT_SHORT = 15,   /* the output has too little room */
    CF_HAS_CHILD = 16,      /* the type has a child there; one: the lowest */
    CF_APPLIED = 17,        /* the type is applied or has anything applied to it there; one: the lowest of these */
    CF_HAS_END = 18,        /* the type is or has an end there; one: the lowest of these */
    CF_UNKNOWN_MODE = 19,   /* a set of modes has one that is none of the five */
    CF_FILE_MALFORMED = 20, /* the file is malformed; one: how many of its first bytes some well-formed file has too */
    CF_FILE_NOT_SOUND = 21  /* the file is well formed, but over a limit or no sound base's */
};

/* `no` is a number of the above; then the values that the call gives, in order. All others are 0. A refusal gives no
 * value, but for 12, 16, 17 and 18: one is the lowest type that stands in the way of a removal, which may be type 0; and
 * for 20: one is the length of the longest start that the bytes share with some well-formed file, which may be 0. */
typedef struct {
    size_t no, one, two, three;
} cf_answer;

#ifdef __cplusplus
extern "C" {
#endif

/* What a number says, as a short sentence for people. */
static inline const char *cf_words(size_t no)
{
    switch (no) {
    case CF_DONE: return "done";
    case CF_NOT_SOUND: return "the base is not sound";
    case CF_NO_SDS: return "no SDS has that number";
    case CF_SYSTEM: return "SDS 0 never changes";
    case CF_MALFORMED: return "a name is malformed";
    case CF_UNKNOWN: return "a kind, category or code is unknown, or the parents are not 1 to 4";
    case CF_NO_TYPE: return "there is no such type there, or it is not visible";
    case CF_WRONG_KIND: return "a type is of the wrong kind, or has no reverse to be named";
    case CF_TWICE: return "a parent or an SDS is given twice";
    case CF_ALREADY: return "it is there already";
    case CF_PARENT_MISSING: return "reserved: no call answers this";
    case CF_TAKEN: return "the name is taken";
    case CF_IN_USE: return "the SDS still holds a type";
    case CF_NOT_THERE: return "there is no such application or end";
    case CF_FULL: return "there is no room in the base";
    case CF_OUTPUT_SHORT: return "the output has too little room";
    case CF_HAS_CHILD: return "the type has a child there";
    case CF_APPLIED: return "the type is applied or has anything applied to it there";
    case CF_HAS_END: return "the type is or has an end there";
    case CF_UNKNOWN_MODE: return "a mode is unknown";
    case CF_FILE_MALFORMED: return "the file is malformed";
    case CF_FILE_NOT_SOUND: return "the file is well formed, but over a limit or not sound";
    default: return "no such number";
    }
}

/* The length of a base in bytes: CF_BASE_LENGTH, as the library that is linked has it. */
size_t cf_base_length(void);

/* Writes a fresh base over any bytes of the right length: SDS 0 "system", holding type 0 "object".
 * 1: the length is not that of a base. */
cf_answer cf_fresh(uint8_t *base, size_t base_len);

/* Makes an SDS of that name. one: its number, the lowest unused.
 * 1: the base is not sound; 4: the name is malformed; 11: an SDS bears it; 14: there are 16 SDSs. */
cf_answer cf_new_sds(uint8_t *base, size_t base_len, const uint8_t *name, size_t name_len);

/* Removes an SDS that holds no type.
 * 1: the base is not sound; 2: no SDS has the number; 3: it is SDS 0; 12: it holds a type, one: the lowest in it. */
cf_answer cf_remove_sds(uint8_t *base, size_t base_len, size_t sds);

/* Makes an object type in an SDS. Its parents are 1 to 4 object types, by their local names there in one run of bytes,
 * parted by one space: "template radio". An empty run is no parents, which is 5; a double, leading or trailing space
 * makes an empty name, which is 4. one: its number, the lowest unused.
 * 1: the base is not sound; 2: no SDS has the number; 3: it is SDS 0; 4: a name is malformed; 5: the parents are not 1
 * to 4; 6: no type bears a parent's name there; 7: it is no object type; 8: a parent is named twice; 11: a type bears
 * the name in that SDS; 14: there is no room for a type or a presence. */
cf_answer cf_new_object(uint8_t *base, size_t base_len, size_t sds, const uint8_t *name, size_t name_len,
                        const uint8_t *parents, size_t parents_len);

/* Makes an attribute type in an SDS. Its value kind is 0 boolean, 1 integer, 2 natural, 3 float, 4 time or 5 string.
 * one: its number, the lowest unused.
 * 1: the base is not sound; 2: no SDS has the number; 3: it is SDS 0; 4: the name is malformed; 5: the value kind is
 * unknown; 11: a type bears the name in that SDS; 14: there is no room for a type or a presence. */
cf_answer cf_new_attribute(uint8_t *base, size_t base_len, size_t sds, const uint8_t *name, size_t name_len,
                           size_t value_kind);

/* Makes a designation link type in an SDS. one: its number, the lowest unused.
 * 1: the base is not sound; 2: no SDS has the number; 3: it is SDS 0; 4: the name is malformed; 11: a type bears the
 * name in that SDS; 14: there is no room for a type or a presence. */
cf_answer cf_new_designation(uint8_t *base, size_t base_len, size_t sds, const uint8_t *name, size_t name_len);

/* Makes two link types in an SDS, each the reverse of the other. A category is 0 composition, 1 existence, 2 reference
 * or 3 implicit. one: the number of the first, the lowest unused; two: that of its reverse, the next lowest.
 * 1: the base is not sound; 2: no SDS has the number; 3: it is SDS 0; 4: a name is malformed; 5: a category is unknown,
 * or both are implicit; 11: a type bears a name in that SDS, or the two are equal; 14: there is no room for two types
 * or two presences. */
cf_answer cf_new_pair(uint8_t *base, size_t base_len, size_t sds, const uint8_t *name, size_t name_len,
                      const uint8_t *reverse_name, size_t reverse_name_len, size_t category, size_t reverse_category);

/* Puts a type of one SDS, by its local name there, into another too; a link type with its reverse, an object type with
 * those of its ancestors that the target lacks, each nameless and with all modes. A new name of length 0 means the name
 * in the source, spelled as there. Applications and ends don't come along.
 * one: the type's number; two: that of its reverse, 0 where it has none.
 * 1: the base is not sound; 2: no SDS has a number; 3: the target is SDS 0; 4: a name is malformed; 6: no type bears
 * the name in the source; 7: a reverse name is given and the type has no reverse; 9: the type is in the target, with a
 * name or without; 11: a type bears a new name in the target, or the two are equal; 14: there is no room for all the
 * presences, those of the ancestors included. */
cf_answer cf_import(uint8_t *base, size_t base_len, size_t target, size_t source, const uint8_t *name, size_t name_len,
                    const uint8_t *new_name, size_t new_name_len, const uint8_t *new_reverse_name,
                    size_t new_reverse_name_len);

/* Applies an attribute type to an object or link type within an SDS, by their local names there.
 * 1: the base is not sound; 2: no SDS has the number; 3: it is SDS 0; 4: a name is malformed; 6: no type bears a name
 * there; 7: the first is no attribute type, or the second an attribute type; 9: it is applied; 14: there is no room for
 * an application. */
cf_answer cf_apply(uint8_t *base, size_t base_len, size_t sds, const uint8_t *attribute, size_t attribute_len,
                   const uint8_t *to, size_t to_len);

/* Takes that away.
 * 1, 2, 3, 4, 6, 7: as for cf_apply; 13: it is not applied. */
cf_answer cf_unapply(uint8_t *base, size_t base_len, size_t sds, const uint8_t *attribute, size_t attribute_len,
                     const uint8_t *to, size_t to_len);

/* Applies a link type within an SDS, by their local names there: the object type becomes an origin of the link type and
 * a destination of its reverse, if it has one.
 * 1: the base is not sound; 2: no SDS has the number; 3: it is SDS 0; 4: a name is malformed; 6: no type bears a name
 * there; 7: the first is no link type, or the second no object type; 9: it is that end; 14: there is no room for the
 * ends. */
cf_answer cf_apply_link(uint8_t *base, size_t base_len, size_t sds, const uint8_t *link, size_t link_len,
                        const uint8_t *object, size_t object_len);

/* Takes both away.
 * 1, 2, 3, 4, 6, 7: as for cf_apply_link; 13: it is not that end. */
cf_answer cf_unapply_link(uint8_t *base, size_t base_len, size_t sds, const uint8_t *link, size_t link_len,
                          const uint8_t *object, size_t object_len);

/* The converse: the object type becomes a destination of the link type and an origin of its reverse, if it has one.
 * 1, 2, 3, 4, 6, 7, 9, 14: as for cf_apply_link. */
cf_answer cf_add_destination(uint8_t *base, size_t base_len, size_t sds, const uint8_t *link, size_t link_len,
                             const uint8_t *object, size_t object_len);

/* Takes both away.
 * 1, 2, 3, 4, 6, 7: as for cf_apply_link; 13: it is not that end. */
cf_answer cf_remove_destination(uint8_t *base, size_t base_len, size_t sds, const uint8_t *link, size_t link_len,
                                const uint8_t *object, size_t object_len);

/* Removes a type from an SDS, by its local name there; a link type with its reverse. A type that is in no SDS any more
 * is gone. one: its number.
 * 1: the base is not sound; 2: no SDS has the number; 3: it is SDS 0; 4: the name is malformed; 6: no type bears it
 * there. What holds it there is told, as one the lowest type that does; when that is out of the way the next is told,
 * and the removal is done when none is left. 16: a child of it. 17: of an attribute type a type that it is applied to;
 * of another an attribute type that is applied to it or to its reverse. 18: of an object type a link type that it is an
 * end of; of a link type an object type that is an end of it or of its reverse. */
cf_answer cf_remove_type(uint8_t *base, size_t base_len, size_t sds, const uint8_t *name, size_t name_len);

/* The same by the number of the type, whether it has a name there or is nameless. one: that number. Ancestors stay,
 * nameless ones too.
 * 1: the base is not sound; 2: no SDS has the number; 3: it is SDS 0; 6: the type is not in that SDS; 16, 17, 18: as for
 * cf_remove_type. */
cf_answer cf_remove_number(uint8_t *base, size_t base_len, size_t sds, size_t type);

/* Gives a type another local name in an SDS. Its own present name is accepted: it changes the spelling, or nothing.
 * 1: the base is not sound; 2: no SDS has the number; 3: it is SDS 0; 4: a name is malformed; 6: no type bears the name
 * in that SDS; 11: another type bears the new one there. */
cf_answer cf_rename(uint8_t *base, size_t base_len, size_t sds, const uint8_t *name, size_t name_len,
                    const uint8_t *new_name, size_t new_name_len);

/* The same by the number of the type, which may be nameless and has the name then; no call takes a name away.
 * 1: the base is not sound; 2: no SDS has the number; 3: it is SDS 0; 4: the name is malformed; 6: the type is not in
 * that SDS; 11: another type bears the new name there. */
cf_answer cf_rename_number(uint8_t *base, size_t base_len, size_t sds, size_t type, const uint8_t *new_name,
                           size_t new_name_len);

/* Sets the two sets of modes of a type in an SDS, by its local name there; of a link type those of its reverse too. Each
 * is a sum of enum cf_mode, and may be empty. A type has all five of both where it is made or imported; a rename keeps
 * what it has.
 * 1: the base is not sound; 2: no SDS has the number; 3: it is SDS 0; 4: the name is malformed; 19: a set is over 31;
 * 6: no type bears the name there. */
cf_answer cf_set_modes(uint8_t *base, size_t base_len, size_t sds, const uint8_t *name, size_t name_len, size_t usage,
                       size_t definition);

/* Where the local name of a type in an SDS stands. one: its start in the base; two: its length, 0 for a nameless type,
 * where one is the start of the field that a name would have. A later change of the base may move it, and it lies in the
 * base: copy it before it is handed to a call that changes that base.
 * 1: the base is not sound; 2: no SDS has the number; 6: the type is not in that SDS. */
cf_answer cf_name(const uint8_t *base, size_t base_len, size_t sds, size_t type);

/* The calls below ask under a working schema, `schema`: a list of SDS numbers, a byte each. A type is visible if
 * a listed SDS holds it; an empty list shows nothing: 6. Only visible types are given, and only what is applied, an
 * origin or a destination in a listed SDS counts. The order of the list matters to cf_find alone. Two lists put end to
 * end, with no SDS twice, show what either does, and a type's descendants are those under either; what it has by its
 * ancestors can be more than under the two apart.
 *
 * `output` takes a list: types in rising number, each once, an entry being two bytes, low byte first. Its room is
 * counted in whole entries, and what lies beyond the entries put down stays as it was. CF_OUTPUT_LENGTH bytes are enough
 * for every list. */

/* Lists types by their relation to an object type. one: their count.
 * Code 0 is its children, 1 its descendants, 2 its parents, 3 its ancestors,
 *      4 the attribute types applied to it, 5 to it or an ancestor,
 *      6 the link types that it is an origin of, 7 that it or an ancestor is,
 *      8 the link types that it is a destination of, 9 that it or an ancestor is.
 * 1: the base is not sound; 2: no SDS has a number listed; 5: no such code; 6: the type is not visible; 7: it is no
 * object type; 8: an SDS is listed twice; 15: the output has too little room. */
cf_answer cf_scan_object(const uint8_t *base, size_t base_len, const uint8_t *schema, size_t schema_len, size_t type,
                         size_t code, uint8_t *output, size_t output_len);

/* Lists types by their relation to a link type. one: their count.
 * Code 0 is its origins, 1 these and their descendants, 2 its destinations, 3 these and their descendants,
 *      4 the attribute types applied to it.
 * 1: the base is not sound; 2: no SDS has a number listed; 5: no such code; 6: the type is not visible; 7: it is no
 * link type; 8: an SDS is listed twice; 15: the output has too little room. */
cf_answer cf_scan_link(const uint8_t *base, size_t base_len, const uint8_t *schema, size_t schema_len, size_t type,
                       size_t code, uint8_t *output, size_t output_len);

/* Lists an object type's ancestors, then the attribute types applied to it or an ancestor, then the link types that it
 * or an ancestor is an origin of, each list straight after the last. one, two, three: their counts.
 * 1: the base is not sound; 2: no SDS has a number listed; 6: the type is not visible; 7: it is no object type; 8: an
 * SDS is listed twice; 15: the output has too little room for the three together. */
cf_answer cf_profile(const uint8_t *base, size_t base_len, const uint8_t *schema, size_t schema_len, size_t type,
                     uint8_t *output, size_t output_len);

/* The type that bears a local name in the first listed SDS that has it. one: the type.
 * 1: the base is not sound; 2: no SDS has a number listed; 4: the name is malformed; 6: no SDS listed has it; 8: an
 * SDS is listed twice. */
cf_answer cf_find(const uint8_t *base, size_t base_len, const uint8_t *schema, size_t schema_len, const uint8_t *name,
                  size_t name_len);

/* The greatest number of parent steps from an object type up to type 0. one: that depth.
 * 1: the base is not sound; 2: no SDS has a number listed; 6: the type is not visible; 7: it is no object type; 8: an
 * SDS is listed twice. */
cf_answer cf_depth(const uint8_t *base, size_t base_len, const uint8_t *schema, size_t schema_len, size_t type);

/* The set of an object type's descendants: type n is bit n mod 64 of word n div 64. one: word 0; two: word 1; three:
 * their count.
 * 1: the base is not sound; 2: no SDS has a number listed; 6: the type is not visible; 7: it is no object type; 8: an
 * SDS is listed twice. */
cf_answer cf_descendant_set(const uint8_t *base, size_t base_len, const uint8_t *schema, size_t schema_len,
                            size_t type);

/* The modes of a type of any kind: those that it has in any of the listed SDSs that hold it. one: usage; two: definition.
 * 1: the base is not sound; 2: no SDS has a number listed; 6: the type is not visible; 8: an SDS is listed twice. */
cf_answer cf_modes(const uint8_t *base, size_t base_len, const uint8_t *schema, size_t schema_len, size_t type);

/* The calls below are for the exchange file: a whole base in the bytes of docs/FILE.md, so that others can hold sets of
 * their own and hand them over. A base has one file, and a file that is read in gives one base: what is written and read
 * is the same base byte for byte, what is read and written the same file. It has no checksum: a byte that changes on
 * the way can make another file that is accepted. */

/* Writes a base as a file, at the start of the output; what lies behind it there stays as it was. one: the length of the
 * file in bytes, at most CF_FILE_MOST.
 * 1: the base is not sound; 15: the output is shorter than the file. */
cf_answer cf_write_file(const uint8_t *base, size_t base_len, uint8_t *output, size_t output_len);

/* Reads a file in: writes the base that it tells of over any bytes of the right length, as cf_fresh does. The file is all
 * of the bytes that are lent; it must not overlap the base. A refusal leaves the base as it was, whatever it was.
 * The whole base is first made on the stack: this call needs up to 18,432 bytes of it, every other up to 1,024.
 * 1: the length is not that of a base; 20: the file is malformed: its sections, counts or the order of its entries are
 * not right, or bytes stand behind it. one: the length of the longest start that it shares with some well-formed file,
 * so that of all of it where it is cut short, and elsewhere the place of the first byte that is wrong. 21: it is well
 * formed, but over a limit or not what a sound base is written as. */
cf_answer cf_read_file(uint8_t *base, size_t base_len, const uint8_t *file, size_t file_len);

/* The bytes that are enough for every file: CF_FILE_MOST, as the library that is linked has it. */
size_t cf_file_most(void);

#ifdef __cplusplus
}
#endif

#endif
