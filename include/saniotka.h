/* Saniotka for C and C++: the check of XPCOM typelibs, the five questions, the normal form, the adoption of a
 * file that libxpt wrote, the link of two files and of many, and what is left of a damaged file; and of the types.rdb
 * files of office suites the check, an entity and a constant.
 *
 * Every function is proved to answer what the definitions in the sources say, for every input. docs/FORMAT.md there says
 * what a typelib is, what each refusal means and what its place counts. The library is made by `bin/build cabi`, as
 * target/staticlib/libcabi.a, for Linux on x86-64; a program that includes this header is linked with it and needs
 * nothing else:
 *
 *     cc -Iinclude program.c target/staticlib/libcabi.a
 *
 * What goes in. A run of bytes is a pointer and its length; texts have no zero byte at their end. With the length 0 the
 * pointer is not followed and may be NULL. Nothing is written to what is const, and const runs may be one another's
 * bytes, so that a file can be linked with itself; `out`, `answer`, the lists of a report and the buffers of a pile share
 * no byte with any other argument. A file may have any bytes and any length: what is no typelib, or no types.rdb, is refused.
 *
 * What comes out. A call returns SANIOTKA_ANSWERED, and its answer is in the first numbers of `answer`, a list of
 * `answers` numbers; those that the answer has no use for keep what they held. A list of fewer than SANIOTKA_ROOM numbers
 * has too little room for some answer: the call then returns SANIOTKA_TOO_SHORT and writes nothing, neither there nor to
 * `out`, a report or the buffers of a pile. Beside these nothing is written, ever.
 *
 *     uint64_t answer[SANIOTKA_ROOM];
 *     saniotka_check(file, length, answer, SANIOTKA_ROOM);
 *
 * Threads. The functions keep no state, allocate nothing and call nothing of the system: any number of threads may call
 * them at once, as long as nobody changes what is lent for a call while it runs.
 *
 * Stack. A call needs fewer than SANIOTKA_STACK bytes of it; one that writes a normal form, which keeps tables of names
 * (saniotka_normal, saniotka_link, saniotka_pile_add, saniotka_pile_end), fewer than SANIOTKA_FORM_STACK;
 * saniotka_salvage, which copies the file too, fewer than SANIOTKA_SALVAGE_STACK, and one about a types.rdb fewer than
 * SANIOTKA_RDB_STACK.
 */
#ifndef SANIOTKA_H
#define SANIOTKA_H

#include <stddef.h>
#include <stdint.h>

#ifdef __cplusplus
extern "C" {
#endif

/* Numbers that any answer fits in. */
#define SANIOTKA_ROOM 8

/* Bytes that any normal form, any adopted file, any link and what is left of any file fit in; a longer file is none. */
#define SANIOTKA_BUFFER 1048576

/* Files of a pile. */
#define SANIOTKA_PILE 256

/* Numbers of each list of a report. */
#define SANIOTKA_REPORTS 1024

/* Bytes of stack that are enough for any call about typelibs that writes no normal form, for those that do, and for
 * saniotka_salvage. */
#define SANIOTKA_STACK 131072
#define SANIOTKA_FORM_STACK 2097152
#define SANIOTKA_SALVAGE_STACK 3276800

/* And for any about a types.rdb. */
#define SANIOTKA_RDB_STACK 2097152

/* What a call returns. */
enum {
    SANIOTKA_ANSWERED = 0,
    SANIOTKA_TOO_SHORT = 1
};

/* The first number of an answer to a question, and of a normal form, an adopted file, a link, a pile or what is left. */
enum {
    SANIOTKA_FOUND = 0,
    SANIOTKA_WRITTEN = 0,
    SANIOTKA_GROWN = 0,
    SANIOTKA_NONE = 1,
    SANIOTKA_FULL = 1,
    SANIOTKA_UNDETERMINED = 2,
    SANIOTKA_REFUSED = 3
};

/* Kinds of methods: with the getter bit, with the setter bit, with neither. */
enum {
    SANIOTKA_GETTER = 0,
    SANIOTKA_SETTER = 1,
    SANIOTKA_PLAIN = 2
};

/* Whether the slot of a method that was found, and the total of slots, is known. */
enum {
    SANIOTKA_SLOT_KNOWN = 0,
    SANIOTKA_SLOT_UNDETERMINED = 1
};

/* The types of constants. */
enum {
    SANIOTKA_I16 = 1,
    SANIOTKA_I32 = 2,
    SANIOTKA_U16 = 5,
    SANIOTKA_U32 = 6
};

/* How a types.rdb is read. Document 001 says that each attribute of an interface has a number of set exceptions; office
 * suites write none for those that are read-only. Never found out by trying: some files can be read both ways. */
enum {
    SANIOTKA_RDB_DOCUMENT = 0,
    SANIOTKA_RDB_OFFICE = 1
};

/* The kinds of constants of a types.rdb. */
enum {
    SANIOTKA_RDB_BOOLEAN = 0,
    SANIOTKA_RDB_BYTE = 1,
    SANIOTKA_RDB_SHORT = 2,
    SANIOTKA_RDB_UNSIGNED_SHORT = 3,
    SANIOTKA_RDB_LONG = 4,
    SANIOTKA_RDB_UNSIGNED_LONG = 5,
    SANIOTKA_RDB_HYPER = 6,
    SANIOTKA_RDB_UNSIGNED_HYPER = 7,
    SANIOTKA_RDB_FLOAT = 8,
    SANIOTKA_RDB_DOUBLE = 9
};

/* Which file of a link is refused. */
enum {
    SANIOTKA_THE_LINK = 0,
    SANIOTKA_FIRST = 1,
    SANIOTKA_SECOND = 2
};

/* Refusals that a program may want to tell from the others, which docs/FORMAT.md lists: 1 to 5, 7 to 19, 29 and
 * 30 are of a file, and 21 to 25 of a link. */
enum {
    SANIOTKA_MALFORMED = 20,    /* the question; its place is 0 */
    SANIOTKA_OVER_LIMIT = 26,   /* what is to be written has more than SANIOTKA_BUFFER bytes; its place is 0 */
    SANIOTKA_SHORT_BUFFER = 27, /* its place is the length that is needed */
    SANIOTKA_CUT = 29,          /* the file has fewer bytes than its header says; its place is 20 */
    SANIOTKA_PADDED = 30,       /* it has more; its place is 20 */
    SANIOTKA_SHORT_LISTS = 38   /* a list of a report has fewer than SANIOTKA_REPORTS numbers, which is its place */
};

/* Is this a typelib?
 *
 *     0, n            it is accepted, and has n interfaces (0 to 1,024)
 *     number, place   it is refused, with the first refusal that applies (docs/FORMAT.md) and its place
 */
int saniotka_check(const uint8_t *file, size_t length, uint64_t *answer, size_t answers);

/* Which interface has this IID? It is 16 bytes, not all zero; anything else is malformed.
 *
 *     SANIOTKA_FOUND, index             the interface's, counted from 1
 *     SANIOTKA_NONE
 *     SANIOTKA_REFUSED, number, place   the file's refusal as above, or else SANIOTKA_MALFORMED and 0
 */
int saniotka_iid(const uint8_t *file, size_t length, const uint8_t *iid, size_t iid_length, uint64_t *answer,
                 size_t answers);

/* The same question, with the number of directory entries that were looked at: the directory, which is sorted, is halved,
 * so these are at most 11.
 *
 *     SANIOTKA_FOUND, index, looked
 *     SANIOTKA_NONE, looked
 *     SANIOTKA_REFUSED, number, place   as above
 */
int saniotka_looks(const uint8_t *file, size_t length, const uint8_t *iid, size_t iid_length, uint64_t *answer,
                   size_t answers);

/* Which interface has this key? An empty namespace asks for the default one. Names and namespaces are 1 to 255 bytes
 * of well-formed UTF-8 (RFC 3629), none of them up to 0x20 nor 0x7F, and not a lone `-`, here and below; anything else is malformed. Answered as
 * above.
 */
int saniotka_key(const uint8_t *file, size_t length, const uint8_t *space, size_t space_length, const uint8_t *name,
                 size_t name_length, uint64_t *answer, size_t answers);

/* Which method of this name and kind has the interface `index`, its own or an inherited one? An index of 0 or past the
 * last interface, and a kind that is none of the three, are malformed.
 *
 *     SANIOTKA_FOUND, owner, position, SANIOTKA_SLOT_KNOWN, slot, distance, SANIOTKA_SLOT_KNOWN, total
 *                                       the interface whose own method it is, its position there from 0, its slot, the
 *                                       steps from `index` up to the owner (0 for itself), and the slots of `index`
 *     SANIOTKA_FOUND, owner, position, SANIOTKA_SLOT_UNDETERMINED, index, distance, SANIOTKA_SLOT_UNDETERMINED, index
 *                                       slot and total rest on this interface, which the file only names
 *     SANIOTKA_NONE
 *     SANIOTKA_UNDETERMINED, index      this interface, which the file only names, may have or inherit it
 *     SANIOTKA_REFUSED, number, place   the file's refusal, or else SANIOTKA_MALFORMED and 0
 */
int saniotka_method(const uint8_t *file, size_t length, uint64_t index, const uint8_t *name, size_t name_length,
                    uint64_t kind, uint64_t *answer, size_t answers);

/* Which method is in this slot of the interface `index`? Answered as above; what is found has this slot, and
 * SANIOTKA_NONE is a slot past the last one. An index of 0 or past the last interface is malformed.
 */
int saniotka_slot(const uint8_t *file, size_t length, uint64_t index, uint64_t slot, uint64_t *answer, size_t answers);

/* Which constant of this name has the interface `index`, its own or an inherited one? An index of 0 or past the last
 * interface is malformed.
 *
 *     SANIOTKA_FOUND, type, bits        one of the four types, and the value: 16 or 32 bits as stored, in two's
 *                                       complement where the type is signed, the others zero
 *     SANIOTKA_NONE
 *     SANIOTKA_UNDETERMINED, index      this interface, which the file only names, may have or inherit it
 *     SANIOTKA_REFUSED, number, place   the file's refusal, or else SANIOTKA_MALFORMED and 0
 */
int saniotka_constant(const uint8_t *file, size_t length, uint64_t index, const uint8_t *name, size_t name_length,
                      uint64_t *answer, size_t answers);

/* The normal form of a file, at the front of `out`. The bytes of `out` past it keep what they held; where it is refused
 * all of them do. SANIOTKA_BUFFER bytes are room for any.
 *
 *     SANIOTKA_WRITTEN, n               n bytes were written
 *     SANIOTKA_REFUSED, number, place   the file's refusal, SANIOTKA_OVER_LIMIT, or SANIOTKA_SHORT_BUFFER
 */
int saniotka_normal(const uint8_t *file, size_t length, uint8_t *out, size_t out_length, uint64_t *answer,
                    size_t answers);

/* A file as libxpt writes it, its directory offset counted from 1, in the published layout, at the front of `out`, with
 * which it is as above. Whether the result is a typelib the check tells.
 *
 *     SANIOTKA_WRITTEN, n               n bytes were written
 *     SANIOTKA_REFUSED, number, place   1 to 5, 7, 29 and 30 as in the check; 8 at 28 or 24, SANIOTKA_OVER_LIMIT, or
 *                                       SANIOTKA_SHORT_BUFFER
 */
int saniotka_adopt(const uint8_t *file, size_t length, uint8_t *out, size_t out_length, uint64_t *answer,
                   size_t answers);

/* The normal form of the union of two files, at the front of `out`, with which it is as above.
 *
 *     SANIOTKA_WRITTEN, n               n bytes were written
 *     SANIOTKA_REFUSED, which, number, place
 *                                       SANIOTKA_FIRST or SANIOTKA_SECOND: that file's own refusal;
 *                                       SANIOTKA_THE_LINK: 21 to 24 with an index in the first file, 25 with 0 (more
 *                                       than 1,024 interfaces), SANIOTKA_OVER_LIMIT, or SANIOTKA_SHORT_BUFFER
 */
int saniotka_link(const uint8_t *first, size_t first_length, const uint8_t *second, size_t second_length, uint8_t *out,
                  size_t out_length, uint64_t *answer, size_t answers);

/* A pile of files, linked one by one: the first with the second, what they left with the third, and so on, up to
 * SANIOTKA_PILE of them. The caller holds one file at a time. A pile is two numbers, 0 and 0 at first: how many files it
 * has, and the length of what they left, which stands at the front of `one` after an odd number of files, else of
 * `other`. The same two buffers of SANIOTKA_BUFFER bytes are lent to each call, and nothing else is written there in
 * between. `one` and `other` share no byte with each other nor with `file`. A refusal leaves both as they were.
 *
 *     SANIOTKA_GROWN, files, left       the pile with this file
 *     SANIOTKA_FULL                     it has SANIOTKA_PILE files already
 *     SANIOTKA_REFUSED, which, number, place, step
 *                                       as for a link, and which link it was, counted from 1. From the second on
 *                                       SANIOTKA_FIRST is what the files before left, and 21 to 24 count its
 *                                       interfaces. The first file's own refusal is one of the first link; SANIOTKA_SHORT_BUFFER if it has no room in `one`
 */
int saniotka_pile_add(uint64_t files, uint64_t left, const uint8_t *file, size_t length, uint8_t *one, size_t one_length,
                      uint8_t *other, size_t other_length, uint64_t *answer, size_t answers);

/* After the last file: a pile of two or more is as it was, and a single file is linked with the empty typelib, so that
 * what is left is a normal form. Answered as above; the empty typelib counts as a file, so that after a single file there
 * are 2 and what is left stands in `other`, and after none there is 1, the empty typelib, in `one`.
 */
int saniotka_pile_end(uint64_t files, uint64_t left, uint8_t *one, size_t one_length, uint8_t *other, size_t other_length,
                      uint64_t *answer, size_t answers);

/* What is left of a damaged file, as a normal form at the front of `out`, with which it is as above. Where all checks up to
 * the directory hold and no key is there twice, an interface whose own descriptor is refused, and then one that lies on a
 * cycle of parents, stays with its IID and without its descriptor. Each of these is told, in the order of the directory,
 * in the first places of three lists of at least SANIOTKA_REPORTS numbers: its index in the file, counted from 1, the
 * number of its refusal and the place. Other places of the lists keep what they held; where the file is refused all of
 * them do. An accepted file comes out as its normal form, with nothing changed. The lists share no byte with each other.
 *
 *     SANIOTKA_WRITTEN, n, changed      n bytes were written, and so many interfaces were changed
 *     SANIOTKA_REFUSED, number, place   1 to 5, 7 to 13, 29 and 30 as in the check, then 18, SANIOTKA_SHORT_LISTS,
 *                                       SANIOTKA_OVER_LIMIT, SANIOTKA_SHORT_BUFFER
 */
int saniotka_salvage(const uint8_t *file, size_t length, uint64_t *indexes, size_t index_count, uint64_t *numbers,
                     size_t number_count, uint64_t *places, size_t place_count, uint8_t *out, size_t out_length,
                     uint64_t *answer, size_t answers);

/* Is this a types.rdb, in that reading? A reading that is none of the two is malformed, here and below, whatever the file
 * is.
 *
 *     0, n            it is accepted, and n entries were visited (0 to 65,536), each as often as its map is read
 *     number, place   it is refused, with 2 or the first of 31 to 37 that applies (docs/FORMAT.md) and its place, or
 *                     SANIOTKA_MALFORMED and 0
 */
int saniotka_rdb_check(const uint8_t *file, size_t length, uint64_t reading, uint64_t *answer, size_t answers);

/* Which entity does this dotted path lead to? It is cut at every dot, and no path is malformed.
 *
 *     SANIOTKA_FOUND, kind, offset      its kind byte, flags and all, and that byte's offset
 *     SANIOTKA_NONE
 *     SANIOTKA_REFUSED, number, place   as above
 */
int saniotka_rdb_entity(const uint8_t *file, size_t length, uint64_t reading, const uint8_t *path, size_t path_length,
                        uint64_t *answer, size_t answers);

/* Which constant does it lead to?
 *
 *     SANIOTKA_FOUND, kind, bits        one of the ten kinds, and the value: 8 to 64 bits as stored, in two's complement
 *                                       where the kind is signed, a FLOAT and a DOUBLE as binary32 and binary64, a NaN's
 *                                       bits too; the others zero
 *     SANIOTKA_NONE
 *     SANIOTKA_REFUSED, number, place   as above
 */
int saniotka_rdb_constant(const uint8_t *file, size_t length, uint64_t reading, const uint8_t *path, size_t path_length,
                          uint64_t *answer, size_t answers);

#ifdef __cplusplus
}
#endif

#endif
