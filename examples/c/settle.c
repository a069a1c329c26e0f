/* Settles one call: a program adds a meter's reading to the total in slot 1 and posts the new total as an event. */
#include "qvm.h"

#include <inttypes.h>
#include <stdio.h>

#define COUNT(a) (sizeof(a) / sizeof((a)[0]))
#define SELECTOR 0x61626364u

static const uint8_t code[] = {
    0x50, 1, 0,                             /* SLoad  r1, key at r0 */
    0x03, 3, 0, 0, 0, 0, 0, 0, 0, 32,       /* Ldi    r3, 32 */
    0x38, 2, 3,                             /* MLoad  r2, word at r3 */
    0x10, 1, 1, 2,                          /* Add    r1, r1, r2 */
    0x51, 0, 1,                             /* SStore key at r0, r1 */
    0x39, 3, 1,                             /* MStore word at r3, r1 */
    0x03, 4, 0, 0, 0, 0, 0, 0, 0, 8,        /* Ldi    r4, 8 */
    0x03, 5, 0, 0, 0, 0, 'R', 'E', 'A', 'D', /* Ldi   r5, READ */
    0x61, 3, 4, 5,                          /* Emit   8 bytes at r3 */
    0x00,                                   /* Halt */
};

/* One entry at 0; it writes slot 1. */
static const uint64_t entries[] = {1, SELECTOR, 0, 0, 1, 0, 0, 1};

/* Slot 1 is 1000: a key of 31 zeroes and a 1, and its value. */
static const uint8_t store[QVM_ROW] = {[31] = 1, [38] = 3, [39] = 232};

/* Memory begins with the key of slot 1; after it stands the reading, 42. */
static const uint8_t preload[QVM_KEY + 8] = {[31] = 1, [39] = 42};

static uint8_t container[256], memory[QVM_MEMORY], starts[QVM_STARTS], log_bytes[QVM_LOG];
static uint8_t changes[16 * QVM_ROW], fetched[16 * QVM_ROW], listed[16 * QVM_ROW];
static uint8_t reads[16 * QVM_KEY], writes[16 * QVM_KEY], fresh[16 * QVM_KEY];
static uint64_t stack[QVM_STACK], answer[QVM_CALL_WORDS];

static void print_bytes(const char *name, const uint8_t *bytes, uint64_t n)
{
    printf("%s ", name);
    for (uint64_t i = 0; i < n; i++)
        printf("%02x", bytes[i]);
    printf("\n");
}

int main(void)
{
    static const uint64_t none[1];
    static const uint8_t absent[1];
    qvm_canonical_bytes(code, sizeof code, none, 0, entries, COUNT(entries), container, sizeof container, answer, COUNT(answer));
    size_t length = answer[1];
    qvm_verify(container, length, answer, COUNT(answer));
    printf("verify %" PRIu64 " code %" PRIu64 " entries %" PRIu64 "\n", answer[0], answer[2], answer[4]);

    qvm_for_entry(container, length, SELECTOR, 100000, 0, 0, 0, store, sizeof store, 0, absent, 0, absent, 0, preload, sizeof preload,
                  memory, sizeof memory, stack, COUNT(stack), starts, sizeof starts, changes, sizeof changes, fetched, sizeof fetched,
                  reads, sizeof reads, writes, sizeof writes, fresh, sizeof fresh, log_bytes, sizeof log_bytes, answer, COUNT(answer));
    printf("end %" PRIu64 " used %" PRIu64 " fetches %" PRIu64 " register 1 %" PRIu64 "\n", answer[QVM_NUMBER], answer[QVM_USED],
           answer[QVM_FETCHES], answer[QVM_REGISTER + 1]);
    print_bytes("log", log_bytes, answer[QVM_LOG_BYTES]);

    qvm_change_list(changes, sizeof changes, answer[QVM_CHANGES], store, sizeof store, 0, absent, 0, listed, sizeof listed, answer,
                    COUNT(answer));
    print_bytes("changes", listed, answer[1] * QVM_ROW);
    return 0;
}
