/* Tinkoraba for C (C99 or later) and C++: the exports of libgateway.a. bindings/README.md says how the archive is built and linked.
 *
 * Every call answers a number, of the enumeration below; docs/ANSWERS.md says what each means, in which order they are looked for, what is left
 * in what was lent, and what to do. Every call fills all four words of `out`, its last parameter: { records, first value, second value, 0 }; what an
 * answer doesn't have is 0 there.
 *
 * All state is lent by the caller. The library has no variable of its own and takes no memory, so calls over different memory may run at the
 * same time in any number of threads; so may calls that only read the same memory, as builds read what a dictionary was prepared in. Memory that a
 * call writes to must not be lent to another call at the same time.
 *
 * Every content of what is lent is allowed and answered. What the caller owes is what C itself asks for: each pointer points to as many elements as
 * the number behind it says (it is not NULL even where that is 0), it is aligned for its type, and what a call writes to overlaps nothing else that
 * the same call was lent. Numbers behind pointers count elements, not bytes. */
#ifndef TINKORABA_H
#define TINKORABA_H

#include <stddef.h>
#include <stdint.h>

#ifdef __cplusplus
extern "C" {
#endif

/* Sizes of what is lent. */
#define TINKORABA_RECORDS 1024           /* records for a build, at least; and the most fields of a message */
#define TINKORABA_MESSAGE_BYTES 8192     /* the longest message or encoding; the output of a take, at least */
#define TINKORABA_STORE_BYTES 16384      /* a framer's store, exactly */
#define TINKORABA_DICTIONARY_BYTES 60000 /* the longest flat dictionary */
#define TINKORABA_PREPARED_WORDS 96157  /* the words of memory that a dictionary is prepared in, at least */
#define TINKORABA_PREPARED_ROOM 524288   /* words that hold the tables of FIX 4.4 and of FIX 5.0 SP1 whole: builds are then short */
#define TINKORABA_WORDS 8205             /* the words of a lent message or draft, exactly */
#define TINKORABA_VALUES 8192            /* the value bytes of a lent message or draft, exactly */

/* FIX's separator. */
#define TINKORABA_SOH 1

/* The bits of a build's settings word. The others are passed over today, so every word may be given; a later version may give one of them a meaning,
 * so leave them 0. */
#define TINKORABA_VALIDATE 1u /* on, it refuses tags of 5000 and above that the dictionary lacks; off, the body takes them */

/* The parts of a message. As a parameter, every number but 1 and 2 is the trailer. */
enum { TINKORABA_HEADER = 1, TINKORABA_BODY = 2, TINKORABA_TRAILER = 3 };

/* The numbers that calls answer. */
enum {
    TINKORABA_VALID = 0,
    TINKORABA_INVALID_FIELD = 1,
    TINKORABA_INVALID_ORDER_IN_GROUP = 2,
    TINKORABA_INVALID_MSG_TYPE = 3,
    TINKORABA_REQUIRED_FIELD_MISSING = 4,
    TINKORABA_GARBLED_MALFORMED = 10,
    TINKORABA_GARBLED_BEGIN_STRING = 11,
    TINKORABA_GARBLED_BODY_LENGTH = 12,
    TINKORABA_GARBLED_MSG_TYPE = 13,
    TINKORABA_GARBLED_CHECKSUM = 14,
    TINKORABA_TOO_LONG = 20,
    TINKORABA_TOO_MANY_FIELDS = 21,
    TINKORABA_INVALID_SEPARATOR = 22,
    TINKORABA_NO_ROOM = 23,
    TINKORABA_STORE_FULL = 25,
    TINKORABA_AFTER_END = 26,
    TINKORABA_NO_MESSAGE = 27, /* also memory in which no dictionary was prepared */
    TINKORABA_DICTIONARY_TOO_LONG = 30,
    TINKORABA_DICTIONARY_BAD_RECORD = 31,
    TINKORABA_DICTIONARY_NO_COMPONENT = 32,
    TINKORABA_DICTIONARY_UNKNOWN_TAG = 33,
    TINKORABA_DICTIONARY_EMPTY_GROUP = 34,
    TINKORABA_DICTIONARY_TOO_DEEP = 35,
    TINKORABA_DICTIONARY_TWICE = 36,
    TINKORABA_DICTIONARY_TOO_MANY_ITEMS = 37,
    TINKORABA_NOT_STORABLE = 41,
    TINKORABA_NO_RUN = 42,
    TINKORABA_INCOMPLETE = 43
};

/* One field of a built message. Depth and entry are 0 outside groups, else they count from 1. Place and length are those of its value in the
 * message's bytes. A record that tells of no field is all zero. */
typedef struct FieldRecord {
    uint8_t part;
    uint8_t depth;
    uint16_t entry;
    uint32_t tag;
    uint16_t place;
    uint16_t length;
} FieldRecord;

/* The ported framer's state; all zero it is fresh. Of the marks 0 means no and everything else yes; one that stays set keeps its byte, so that a
   refused call leaves the state as it was. */
typedef struct PortedState {
    size_t used;
    uint8_t ended;
    uint8_t over;
} PortedState;

/* The hunting framer's state; all zero it is fresh. `dropped` counts the places that were passed over since a reset, mod 2^64. */
typedef struct HunterState {
    size_t used;
    uint64_t dropped;
    uint8_t ended;
} HunterState;

#if defined(__STDC_VERSION__) && __STDC_VERSION__ >= 201112L
_Static_assert(sizeof(FieldRecord) == 12, "a record is 12 bytes");
_Static_assert(sizeof(PortedState) == 16, "the ported framer's state is 16 bytes");
_Static_assert(sizeof(HunterState) == 24, "the hunting framer's state is 24 bytes");
#endif

/* ---- The sizes above, as the library has them. ---- */

uint32_t gateway_most_records(void);
uint32_t gateway_most_message_bytes(void);
uint32_t gateway_store_bytes(void);
uint32_t gateway_most_dictionary_bytes(void);
uint32_t gateway_message_words(void);
uint32_t gateway_prepared_words(void);

/* ---- Dictionary and build ---- */

/* Checks a flat dictionary: 0, or 30 to 37 with out[1] saying where. */
uint32_t gateway_check(const uint8_t *dictionary, size_t dictionary_length, uint32_t out[4]);

/* Checks a flat dictionary and prepares it, once for many builds: its records in the copy, of at least as many bytes as it has, and what they name in
 * the memory, of at least TINKORABA_PREPARED_WORDS words. 0; 23, looked for first, where one of these is too short; or 30 to 37 as gateway_check
 * answers them. On a refusal both are as they were. The dictionary isn't needed afterwards: what was prepared has no pointer to it.
 *
 * More words are for a directory and for tables that builds read through: those of the header's tags, of the trailer's and of each message, as many
 * as have room. A build of a message without a table lays it anew from the copy and drops it afterwards. So more memory makes builds shorter and
 * changes no answer; words that are not taken stay as they were. TINKORABA_PREPARED_ROOM words, 1 MB, are enough for all tables of FIX 4.4 or of
 * FIX 5.0 SP1. */
uint32_t gateway_prepare(const uint8_t *dictionary, size_t dictionary_length, uint8_t *copy, size_t copy_length, uint16_t *memory,
                         size_t memory_count, uint32_t out[4]);

/* Builds a message from its bytes. out[0] is how many records were filled; out[1] and out[2] are the values of 1 to 4 and of 30 to 37. Records
 * past those filled are zero; with 20, 22 and 23 all are as they were. `settings` is TINKORABA_VALIDATE or 0. */
uint32_t gateway_build(const uint8_t *message, size_t message_length, uint8_t separator, uint32_t settings, const uint8_t *dictionary,
                       size_t dictionary_length, FieldRecord *records, size_t record_count, uint32_t out[4]);

/* Builds a message as gateway_build does, over the copy and the memory that gateway_prepare left: it takes no dictionary and checks none, so it never
 * answers 30 to 37, and else answers as gateway_build with that dictionary. 27, looked for before 22, where the memory tells that nothing was prepared
 * in what is lent; all records are then as they were. Copy and memory are only read: any number of threads may build over them at the same time, each
 * with records of its own, while nobody prepares in them. */
uint32_t gateway_build_prepared(const uint8_t *message, size_t message_length, uint8_t separator, uint32_t settings, const uint8_t *copy,
                                size_t copy_length, const uint16_t *memory, size_t memory_count, FieldRecord *records, size_t record_count,
                                uint32_t out[4]);

/* ---- A message to change: TINKORABA_WORDS words and TINKORABA_VALUES value bytes ---- */

/* Makes what is lent an empty message, whatever it held. */
uint32_t gateway_empty(uint32_t *words, size_t word_count, uint8_t *values, size_t value_count, uint32_t out[4]);

/* Makes what is lent a message with a BeginString (8) and a MsgType (35). A separator in them does what it does in gateway_store. */
uint32_t gateway_new(uint32_t *words, size_t word_count, uint8_t *values, size_t value_count, const uint8_t *begin_string,
                     size_t begin_string_length, const uint8_t *message_type, size_t message_type_length, uint32_t out[4]);

/* Takes the first `count` records over into what is lent, with the values that they point at in the message's bytes. */
uint32_t gateway_take_over(const FieldRecord *records, size_t record_count, size_t count, const uint8_t *message, size_t message_length,
                           uint32_t *words, size_t word_count, uint8_t *values, size_t value_count, uint32_t out[4]);

/* Stores a field in a part: in the place of the one with its tag, or last.
 *
 * A value that holds the separator is stored and found as it is, and written as it is: gateway_encode doesn't look for its separator in values.
 * BodyLength and CheckSum count it like any byte, so both are right; but who reads the encoding takes the value to end there, and what follows for the
 * next field, or for one that can't be read (10 from a build that needs one there). A 58 with `x`, the separator and `38=800` is read as two fields, and
 * that 38 takes the place of an earlier one. So look for the separator in values that come from outside. By the standard only a data field may hold
 * byte 1, right behind its length field (95 and 96), and so it is written; a build here ends its value there all the same. */
uint32_t gateway_store(uint32_t *words, size_t word_count, uint8_t *values, size_t value_count, uint8_t part, uint32_t tag, const uint8_t *value,
                       size_t value_length, uint32_t out[4]);

/* Removes a field from a part. 0 too where the tag isn't held. A run that hung on it stays. */
uint32_t gateway_remove(uint32_t *words, size_t word_count, uint8_t *values, size_t value_count, uint8_t part, uint32_t tag, uint32_t out[4]);

/* Encodes at the start of the output; out[1] is the length. The message then holds the new BodyLength (9), and the new CheckSum (10) last. Values are
 * written as they are, whatever they hold (gateway_store). */
uint32_t gateway_encode(uint32_t *words, size_t word_count, uint8_t *values, size_t value_count, uint8_t *output, size_t output_length,
                        uint8_t separator, uint32_t out[4]);

/* ---- Runs of a repeating group: a draft has words and value bytes of a message's sizes, is filled entry by entry, and is then hung ---- */

/* Makes what is lent a draft without entries. */
uint32_t gateway_draft(uint32_t *words, size_t word_count, uint8_t *values, size_t value_count, uint32_t out[4]);

/* Adds an entry to a draft. `start` is the tag of the count field that the run hangs on, `delimiter` the tag that opens each entry. */
uint32_t gateway_add_entry(uint32_t *words, size_t word_count, uint8_t *values, size_t value_count, uint32_t start, uint32_t delimiter,
                           uint32_t out[4]);

/* Stores a field in a draft's last entry. A value that holds the separator is written as it is, as from gateway_store: who reads the encoding takes it
 * to end there, and what follows for another field, in the entry or behind it (79 with `A`, the separator and `79=B` is read as two entries), or for
 * one that can't be read. */
uint32_t gateway_store_last(uint32_t *words, size_t word_count, uint8_t *values, size_t value_count, uint32_t tag, const uint8_t *value,
                            size_t value_length, uint32_t out[4]);

/* Hangs a run in the last entry of another draft: a nested group. */
uint32_t gateway_hang_last(uint32_t *words, size_t word_count, uint8_t *values, size_t value_count, const uint32_t *run_words,
                           size_t run_word_count, const uint8_t *run_values, size_t run_value_count, uint32_t out[4]);

/* Hangs a run on a part of a message, in the place of an earlier run on its start tag. Its count field is stored by the caller. */
uint32_t gateway_hang(uint32_t *words, size_t word_count, uint8_t *values, size_t value_count, uint8_t part, const uint32_t *run_words,
                      size_t run_word_count, const uint8_t *run_values, size_t run_value_count, uint32_t out[4]);

/* ---- Look-ups: out[0] is 1 where it was found and 0 where it is absent; the answer is 0 both times, or 27 ---- */

/* The map of a part; out[1] names it. Any change of the message makes such a name stale. */
uint32_t gateway_find_part(const uint32_t *words, size_t word_count, const uint8_t *values, size_t value_count, uint8_t part, uint32_t out[4]);

/* A field of a map; out[1] and out[2] are place and length of its value in `values`. */
uint32_t gateway_find_field(const uint32_t *words, size_t word_count, const uint8_t *values, size_t value_count, size_t map, uint32_t tag,
                            uint32_t out[4]);

/* An entry of the run that hangs on `start` in a map; out[1] names the entry's map. Entries are numbered from 0. */
uint32_t gateway_find_entry(const uint32_t *words, size_t word_count, const uint8_t *values, size_t value_count, size_t map, uint32_t start,
                            size_t number, uint32_t out[4]);

/* ---- The ported framer cuts a stream by the lengths that messages announce ---- */

/* A chunk of the stream. */
uint32_t gateway_ported_push(PortedState *state, uint8_t *store, size_t store_length, const uint8_t *chunk, size_t chunk_length, uint32_t out[4]);

/* The stream's end. */
uint32_t gateway_ported_end(PortedState *state, const uint8_t *store, size_t store_length, uint32_t out[4]);

/* The next message, at the start of the output; out[1] is its length, 0 if none is ready. */
uint32_t gateway_ported_take(PortedState *state, uint8_t *store, size_t store_length, uint8_t *output, size_t output_length, uint32_t out[4]);

/* A fresh state, whatever it held. */
uint32_t gateway_ported_reset(PortedState *state, uint32_t out[4]);

/* ---- The hunting framer finds whole frames in a damaged stream. After a reset give chunks of at most 8,192 bytes, and after each take until
 *      out[1] is 0 ---- */

/* A chunk of the stream. */
uint32_t gateway_hunter_push(HunterState *state, uint8_t *store, size_t store_length, const uint8_t *chunk, size_t chunk_length, uint32_t out[4]);

/* The stream's end: what still waited is dropped by the takes that follow. */
uint32_t gateway_hunter_end(HunterState *state, const uint8_t *store, size_t store_length, uint32_t out[4]);

/* The next frame, at the start of the output; out[1] is its length, 0 if none is ready. */
uint32_t gateway_hunter_take(HunterState *state, uint8_t *store, size_t store_length, uint8_t *output, size_t output_length, uint32_t out[4]);

/* A fresh state, whatever it held. */
uint32_t gateway_hunter_reset(HunterState *state, uint32_t out[4]);

#ifdef __cplusplus
}
#endif

#endif
