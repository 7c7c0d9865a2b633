/* The proved Beaker kernel, for a C host: link libbeaker.a (x86-64 Linux), which
 * tools/archive proves and writes to target/staticlib/.
 *
 * Each function is lent byte arrays as a pointer and a length, answers for every content and every
 * length, and keeps nothing: all state is in the table. What it assumes of its caller:
 *
 * - No pointer is null. For a length of 0 any other pointer will do; nothing is read through it.
 * - Each pointer is good for as many bytes as its length says, for the whole call, and no other
 *   thread changes them meanwhile. A length is at most PTRDIFF_MAX.
 * - Where the table is written, nobody else reads or writes it during the call, and it overlaps
 *   nothing else that is lent.
 * - BEAKER_STACK_BYTES of stack are free below the caller's frame. This is measured, not proved.
 *
 * The kernel also believes what it is told of who runs, of a contract's code and of the ledger:
 * "What is assumed of the host" in docs/PROMISES.md says what a host owes it. This header is written
 * by hand; host/tests/c_program.c tests it.
 *
 * A refusal leaves every byte of the table as it was. docs/HANDBOOK.md explains every code.
 */
#ifndef BEAKER_H
#define BEAKER_H

#include <stddef.h>
#include <stdint.h>

#ifdef __cplusplus
extern "C" {
#endif

#define BEAKER_KEY_BYTES 24
#define BEAKER_ADDRESS_BYTES 20
#define BEAKER_WORD_BYTES 32
#define BEAKER_FULL_TABLE_BYTES 65536

/* How many bytes of stack a call needs at most, below its caller's frame. docs/PROMISES.md has what
 * was measured; `cargo test --test stack -- --nocapture`, in host/, measures it again. */
#define BEAKER_STACK_BYTES 20480

/* What a call answers. Fields that an answer does not name are zero. */
struct beaker_reply {
    /* Register: how many held capabilities were compared with requested ones. */
    uint64_t tests;
    /* Call: where in the caller's message the payload begins (65), also when it is empty; 0 for
     * every other answer. */
    size_t payload_at;
    /* Call: how many bytes the payload has. */
    size_t payload_len;
    /* Call: the callee's address. */
    uint8_t address[BEAKER_ADDRESS_BYTES];
    /* Look: the slot's value, most significant byte first; zero if nothing is stored there. */
    uint8_t value[BEAKER_WORD_BYTES];
    /* 1 for a success, 0 for a refusal. */
    uint8_t flag;
    /* How many bytes the refusal's code has: 1 or 2; 0 for a success. */
    uint8_t code_len;
    /* The refusal's code, from the left. */
    uint8_t code[2];
};

/* Set-up: makes this the table of a new kernel, whatever it held. The table's length is a multiple
 * of 64, at most 65,536 bytes; the key has 24 bytes, each address 20. The key's procedure is then
 * listed, current and entry, and may do everything but write kernel storage. */
struct beaker_reply beaker_set_up(uint8_t *table, size_t table_len, const uint8_t *key,
                                  size_t key_len, const uint8_t *address, size_t address_len,
                                  const uint8_t *kernel_address, size_t kernel_address_len);

/* Turn: says which procedure runs from now on, by its key of 24 bytes. */
struct beaker_reply beaker_turn(uint8_t *table, size_t table_len, const uint8_t *key,
                                size_t key_len);

/* Look: reads one slot, by its key of 32 bytes. The table is not written. */
struct beaker_reply beaker_look(const uint8_t *table, size_t table_len, const uint8_t *slot,
                                size_t slot_len);

/* A system call of the running procedure. The message is a type byte, then words of 32 bytes, most
 * significant byte first; a key or a contract's address stands right in its word:
 *
 *   0 Null
 *   3 Call       index, key; then any bytes, which are the payload
 *   4 Register   index, key, address; then the capabilities to the end
 *   5 Delete     index, key
 *   6 Set Entry  index, key
 *   7 Write      index, address, value
 *
 * Null, Delete, Set Entry and Write end there: a byte more is refused (66 eb).
 *
 * The index says which of its capabilities of the message's type the running procedure uses,
 * counted from 0. Each capability that Register requests begins with two words: its size, which is
 * 1 + the number of words that follow the two, and its type. These follow:
 *
 *   3 Call, 4 Register, 5 Delete   one word: the keys that share their first bits (byte 0: how many,
 *                                  at most 192, the whole key) with the key in bytes 8 to 31
 *   6 Set Entry                    nothing
 *   7 Write                        two words: base, the first address, and additional, how many
 *                                  more follow it
 *
 * Only Register uses what the contract's code and the opcode mask hold, but the mask has 32 bytes
 * in every call: opcode k is allowed when bit k % 8 (the lowest is 0) of byte k / 8 is set. */
struct beaker_reply beaker_system_call(uint8_t *table, size_t table_len, const uint8_t *message,
                                       size_t message_len, const uint8_t *code, size_t code_len,
                                       const uint8_t *mask, size_t mask_len);

#ifdef __cplusplus
}
#endif

#endif
