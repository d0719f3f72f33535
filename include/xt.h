/* Ruhvelma for C and C++: the extensible types of DDS (DDS-XTypes 1.3), over octets in memory.
 *
 * A handle is a struct with one pointer. Begin with XT_NULL; never copy a handle, never write to it. Closing makes it null again; closing a
 * null handle does nothing, and a call on one answers XT_CLOSED. Opening into a handle first frees what it held. A handle may be moved to another
 * place in memory, where the place that it was at is not used again. One handle is for one call at a time. It may go to another thread.
 * Octets cross as a pointer and a length; where the length is 0 the pointer may be anything, null too. What a call writes to
 * does not overlap what it reads.
 *
 * Each call that answers takes room for a text or a sample, and `needed`. Where the answer fits, it stands at the front of the room. Where it
 * doesn't, nothing is written: the call answers XT_ROOM in place of XT_OK, `needed` tells the room that it takes, and the same call may be
 * made again. A refusal has its own status, whether its text fits or not. Texts have no zero behind them.
 *
 * A call takes at most 512 KiB of stack. */
#ifndef XT_H
#define XT_H

#include <stddef.h>
#include <stdint.h>

#ifdef __cplusplus
extern "C" {
#endif

typedef struct xt_types { void *at; } xt_types;
typedef struct xt_reader { void *at; } xt_reader;

#define XT_NULL { 0 }

enum {
    XT_OK = 0,
    XT_NO = 1,              /* not assignable: `no RULE PATH` */
    XT_WORDS = 2,           /* a word has no form that names a type, or a number is none of those below */
    XT_BUNDLE = 3,          /* `bundle AT WHY` */
    XT_MEMORY = 6,
    XT_TYPES = 7,           /* `idl ..`, `object ..`, `pool ..`, `resolve ..`, `top WORD` */
    XT_NAME = 8,            /* `name WORD` */
    XT_JSON = 10,           /* `syntax`, or `RULE PATH` */
    XT_CLOSED = 13,         /* the handle is null */
    XT_ROOM = 14,           /* the answer doesn't fit */
    XT_DISCARDED = 16,
    XT_MUST_UNDERSTAND = 17,
    XT_MALFORMED = 18,      /* `malformed AT WHY` */
    XT_TOO_LARGE = 19       /* the sample would pass 1,048,576 octets */
};

enum { XT_XCDR1 = 1, XT_XCDR2 = 2 };

/* Policies: any sum of these, 0 for the standard's own (7.6.3.7). */
enum { XT_DISALLOW = 1, XT_STRING_BOUNDS = 2, XT_SEQUENCE_BOUNDS = 4, XT_ANY_NAMES = 8 };

/* Flags of JSON: 0, and a float is a text of its bits, 8 or 16 hexadecimal digits, the highest first; or XT_NUMBERS. */
enum { XT_NUMBERS = 1 };

/* The types of a bundle of Idl and Object records. */
uint32_t xt_types_open(xt_types *types, const uint8_t *bundle, size_t bundle_size, uint8_t *text, size_t room, size_t *needed);
void xt_types_close(xt_types *types);

/* Whether the type that `reads` names is assignable from the one that `writes` names: XT_OK, or XT_NO with the rule and the path. */
uint32_t xt_judge(xt_types *types, const uint8_t *reads, size_t reads_size, const uint8_t *writes, size_t writes_size, uint32_t rep,
                  uint32_t policy, uint8_t *text, size_t room, size_t *needed);

/* The identifier of the TypeObject of the structure or union that a word names, in 30 hexadecimal digits: the complete one, or for a word that
 * names an object that object's own. */
uint32_t xt_type_id(xt_types *types, const uint8_t *word, size_t word_size, uint8_t *text, size_t room, size_t *needed);

/* The minimal identifier of the structure or union that a word names, in 30 hexadecimal digits. */
uint32_t xt_minimal_id(xt_types *types, const uint8_t *word, size_t word_size, uint8_t *text, size_t room, size_t *needed);

/* The IDL text of the structure or union that a word names: one line, inside the modules of its name. What it refers to is named, not defined.
 * A type without a name, as that of a minimal object, has none: XT_NAME. */
uint32_t xt_print(xt_types *types, const uint8_t *word, size_t word_size, uint8_t *text, size_t room, size_t *needed);

/* The IDL text of all types that texts of the bundle declare, a line for each, in order. */
uint32_t xt_print_all(xt_types *types, uint8_t *text, size_t room, size_t *needed);

/* A reader of samples that are written in `rep`, where the verdict is yes. The types may be closed before it. */
uint32_t xt_reader_open(xt_reader *reader, xt_types *types, const uint8_t *reads, size_t reads_size, const uint8_t *writes,
                        size_t writes_size, uint32_t rep, uint32_t policy, uint8_t *text, size_t room, size_t *needed);
void xt_reader_close(xt_reader *reader);

/* A sample as JSON. With XT_NUMBERS a finite float is a number with a point or an exponent, of which it is the nearest float, negative zero
 * `-0.0`; a NaN or an infinity stays a text of its bits. With the same flags xt_write reads the text as the value that was read. */
uint32_t xt_read(xt_reader *reader, const uint8_t *sample, size_t sample_size, uint32_t flags, uint8_t *text, size_t room, size_t *needed);

/* A sample as a sample of the reader's type in the representation `to`, in little-endian order. */
uint32_t xt_convert(xt_reader *reader, const uint8_t *sample, size_t sample_size, uint32_t to, uint8_t *out, size_t room, size_t *needed);

/* The hash of the key of a sample's value, as the reader's type sees it: 16 octets (7.6.8). A sample of more than 1,048,576 octets is
 * XT_TOO_LARGE. */
uint32_t xt_key_hash(xt_reader *reader, const uint8_t *sample, size_t sample_size, uint8_t *hash, size_t room, size_t *needed);

/* A value of the reader's type in JSON as a sample in the representation `to`, in little-endian order. With XT_NUMBERS a float may be a number:
 * the nearest float, ties to even, and `RANGE PATH` where that isn't finite; or a text of its bits, as without. */
uint32_t xt_write(xt_reader *reader, const uint8_t *json, size_t json_size, uint32_t to, uint32_t flags, uint8_t *out, size_t room,
                  size_t *needed);

#ifdef __cplusplus
}
#endif

#endif
