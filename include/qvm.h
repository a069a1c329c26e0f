/* The settlement interpreter as a static library.
 *
 * Every function takes any input and answers it; none has a precondition beyond C's own:
 *   - a slice is a pointer and the number of its elements; the pointer is not null and is aligned for its element, also where the
 *     number is 0, and so many elements may be read (and, where it is not const, written) there;
 *   - a slice that is not const shares no element with another slice of the same call.
 * Nothing is kept between calls and no memory is allocated, so calls on different slices may run at the same time.
 *
 * Each function writes its answer as 64-bit words to the front of `answer` and leaves the words after them as they were. The first
 * word is the number (enum qvm_number), which is returned too. An `answer` that is too short for its words is QVM_NO_ROOM, and then
 * nothing that is lent is touched. */
#ifndef QVM_H
#define QVM_H

#include <stddef.h>
#include <stdint.h>

#ifdef __cplusplus
extern "C" {
#endif

/* Sizes that a call must be lent exactly: bytes of memory, words of stack, bytes of the map of instruction starts. */
#define QVM_MEMORY 65536
#define QVM_STACK 1024
#define QVM_STARTS 8192

/* A log of so many bytes is never too short. */
#define QVM_LOG 1048576

/* Bytes of a row: of changes, fetched values, store and loader; of authorisations and paid-as-fresh; of replies. */
#define QVM_ROW 40
#define QVM_KEY 32
#define QVM_REPLY 48

/* Words of each answer. */
#define QVM_CALL_WORDS 23
#define QVM_VERIFY_WORDS 5
#define QVM_PAIR_WORDS 2

/* What a number says; the argument's meaning in brackets, 0 where there is none. */
enum qvm_number {
    QVM_DONE = 0, /* done, or halted */
    QVM_OUT_OF_METER = 1,
    QVM_OVERFLOW = 2,
    QVM_DIV_BY_ZERO = 3,
    QVM_STACK_OVERFLOW = 4,
    QVM_STACK_UNDERFLOW = 5,
    QVM_BAD_MEMORY = 6,
    QVM_BAD_JUMP = 7,
    QVM_BAD_CONST = 8,
    QVM_UNKNOWN_SELECTOR = 9,
    QVM_BAD_SCHEME = 10,
    QVM_EFFECTS_TOO_LARGE = 11,
    QVM_UNDECLARED_SLOT = 12,
    QVM_CRYPTO_FAULT = 13,
    QVM_MALFORMED = 14,
    QVM_UNKNOWN_OPCODE = 15, /* [byte] */
    QVM_BAD_REGISTER = 16,   /* [byte] */
    QVM_TRUNCATED = 17,
    QVM_CODE_TOO_LARGE = 21,
    QVM_CONSTS_TOO_LARGE = 22,
    QVM_ENTRIES_TOO_LARGE = 23,
    QVM_UNDECODABLE_CODE = 24,         /* [place] */
    QVM_CONST_INDEX_OUT_OF_RANGE = 25, /* [index] */
    QVM_MISALIGNED_TARGET = 26,        /* [target] */
    QVM_ENTRY_OFFSET_MISALIGNED = 27,  /* [selector] */
    QVM_DUPLICATE_SELECTOR = 28,       /* [selector] */
    QVM_ACCESS_LIST_TOO_LARGE = 29,    /* [selector] */
    QVM_BAD_TAG = 41,                  /* bytes that do not begin with QVM1 */
    QVM_SHORT = 42,                    /* bytes that end too soon */
    QVM_TRAILING = 43,                 /* bytes after the last entry */
    QVM_BAD_BUFFER = 44,               /* memory, stack or starts of another size */
    QVM_BAD_TABLE = 45,                /* not whole rows, or keys that do not rise */
    QVM_BAD_REPLY = 46,                /* not whole rows, or a row that is no reply */
    QVM_NO_REPLY = 47,                 /* a crypto instruction, and no reply is left */
    QVM_NO_ROOM = 48,                  /* an answer, output, table or log that is too short */
    QVM_BAD_LIST = 49                  /* not a list of entries */
};

/* Words of a call's answer. */
enum qvm_call_word {
    QVM_NUMBER = 0,
    QVM_ARGUMENT = 1,
    QVM_FETCHES = 2,   /* instructions fetched */
    QVM_USED = 3,      /* of the limit; this word and those below are 0 unless the call halted */
    QVM_FETCHED = 4,   /* values fetched from the loader */
    QVM_CHANGES = 5,   /* rows of changes */
    QVM_LOG_BYTES = 6, /* bytes of the log */
    QVM_REGISTER = 7   /* register 0; register 15 is the last word */
};

/* Opens a call at the entry with `selector` and runs it.
 *
 *   container     a container's canonical bytes
 *   limit         how much the call may use
 *   genesis       the genesis selector, which this function refuses with 9
 *   ml_signed, slh_signed
 *                 bytes of key and signature together, of the two signature schemes
 *   store         rows of QVM_ROW bytes: key 32, value 8 (big-endian), keys strictly rising
 *   has_loader    0: there is none, and the loader's bytes are not looked at; else there is one, and a key that it lacks is 0
 *   loader        rows as the store's
 *   replies       rows of QVM_REPLY bytes, used in order by crypto instructions
 *   preload       what memory begins with; cut at 65536 bytes
 *   memory, stack, starts
 *                 of QVM_MEMORY bytes, QVM_STACK words, QVM_STARTS bytes; other sizes are 44
 *   changes       rows of QVM_ROW bytes; holds as many whole rows as fit. After a halt the keys stored with their last values, rising
 *   fetched       rows of QVM_ROW bytes, for values fetched from the loader
 *   reads, writes, fresh
 *                 rows of QVM_KEY bytes: keys authorised to read, to write, keys that paid as fresh
 *   log           after a halt the effects: each is its data, then a trailer of 13 bytes: kind (0 transfer, 1 event), 8 bytes
 *                 (amount, or selector and four zeroes), the data's length in 4. QVM_LOG bytes are always enough
 *   answer        QVM_CALL_WORDS words (enum qvm_call_word)
 *
 * A call that is refused before its first instruction (0 fetches) leaves every buffer as it was. After a halt all bytes of changes
 * and log past what was written are zero, and so are all other buffers; after any other end all buffers are zero. */
uint32_t qvm_for_entry(const uint8_t *container, size_t container_len, uint32_t selector, uint64_t limit, uint32_t genesis,
                       uint64_t ml_signed, uint64_t slh_signed, const uint8_t *store, size_t store_len, uint8_t has_loader,
                       const uint8_t *loader, size_t loader_len, const uint8_t *replies, size_t replies_len,
                       const uint8_t *preload, size_t preload_len, uint8_t *memory, size_t memory_len, uint64_t *stack,
                       size_t stack_len, uint8_t *starts, size_t starts_len, uint8_t *changes, size_t changes_len,
                       uint8_t *fetched, size_t fetched_len, uint8_t *reads, size_t reads_len, uint8_t *writes,
                       size_t writes_len, uint8_t *fresh, size_t fresh_len, uint8_t *log, size_t log_len, uint64_t *answer,
                       size_t answer_len);

/* The same for the entry with the genesis selector. */
uint32_t qvm_for_genesis(const uint8_t *container, size_t container_len, uint64_t limit, uint32_t genesis, uint64_t ml_signed,
                         uint64_t slh_signed, const uint8_t *store, size_t store_len, uint8_t has_loader,
                         const uint8_t *loader, size_t loader_len, const uint8_t *replies, size_t replies_len,
                         const uint8_t *preload, size_t preload_len, uint8_t *memory, size_t memory_len, uint64_t *stack,
                         size_t stack_len, uint8_t *starts, size_t starts_len, uint8_t *changes, size_t changes_len,
                         uint8_t *fetched, size_t fetched_len, uint8_t *reads, size_t reads_len, uint8_t *writes,
                         size_t writes_len, uint8_t *fresh, size_t fresh_len, uint8_t *log, size_t log_len, uint64_t *answer,
                         size_t answer_len);

/* Whether a container is valid (21 to 29, 41 to 43). answer, QVM_VERIFY_WORDS: number, argument, code bytes, constants, entries; the
 * last three are 0 when it is refused. */
uint32_t qvm_verify(const uint8_t *container, size_t container_len, uint64_t *answer, size_t answer_len);

/* Where the code of the first entry with a selector begins (9, 41 to 43). answer, QVM_PAIR_WORDS: number, offset; 0 when refused. */
uint32_t qvm_entry_offset(const uint8_t *container, size_t container_len, uint32_t selector, uint64_t *answer,
                          size_t answer_len);

/* Writes a container's canonical bytes to the front of `out` (48, 49). `entries` is the number of entries, then for each its
 * selector, its offset, four counts (reads, writes, keyed reads, keyed writes) and its slots. Bytes past what is written, and all of
 * `out` when refused, stay. answer, QVM_PAIR_WORDS: number, bytes written; 0 when refused. */
uint32_t qvm_canonical_bytes(const uint8_t *code, size_t code_len, const uint64_t *constants, size_t constants_len,
                             const uint64_t *entries, size_t entries_len, uint8_t *out, size_t out_len, uint64_t *answer,
                             size_t answer_len);

/* Writes the rows of changed keys to the front of `out` (45, 48): of the first `count` rows of `changes`, those whose value is not
 * the key's starting value (the store's, else the loader's, else 0), rising. Bytes past what is written, and all of `out` when
 * refused, stay. answer, QVM_PAIR_WORDS: number, rows; 0 when refused. */
uint32_t qvm_change_list(const uint8_t *changes, size_t changes_len, uint64_t count, const uint8_t *store, size_t store_len,
                         uint8_t has_loader, const uint8_t *loader, size_t loader_len, uint8_t *out, size_t out_len,
                         uint64_t *answer, size_t answer_len);

#ifdef __cplusplus
}
#endif

#endif
