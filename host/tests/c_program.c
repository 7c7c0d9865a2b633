/* The header's functions and every field of the struct, from C. tests/c_program.rs compiles and
 * runs it; it prints the struct's layout and ends with status 0, or names the first line that does
 * not hold. */
#include "beaker.h"

#include <stdio.h>
#include <stdlib.h>
#include <string.h>

#define HOLDS(condition)                                                                           \
    do {                                                                                           \
        if (!(condition)) {                                                                        \
            fprintf(stderr, "line %d: not %s\n", __LINE__, #condition);                            \
            exit(1);                                                                               \
        }                                                                                          \
    } while (0)

_Static_assert(sizeof(struct beaker_reply) == 80, "the struct has no gap and no tail");

/* Prints where a field stands and how many bytes it has: the test compares that with the Rust
 * package's struct. */
#define PRINT_PLACE(field)                                                                         \
    printf(#field " %zu %zu\n", offsetof(struct beaker_reply, field),                              \
           sizeof((struct beaker_reply *)0)->field)

enum { CALL = 3, REGISTER = 4, DELETE = 5, WRITE = 7, DATA = 1, WORD = BEAKER_WORD_BYTES };

static uint8_t table[BEAKER_FULL_TABLE_BYTES];
static const uint8_t first_key[BEAKER_KEY_BYTES] = {[23] = 0x01};
static const uint8_t second_key[BEAKER_KEY_BYTES] = {[23] = 0x02};
static const uint8_t address[BEAKER_ADDRESS_BYTES] = {[19] = 0x11};
static const uint8_t kernel_address[BEAKER_ADDRESS_BYTES] = {[19] = 0x22};
static const uint8_t code[1] = {0x00};
static const uint8_t mask[WORD] = {0x01};

static struct beaker_reply call(const uint8_t *message, size_t message_len) {
    return beaker_system_call(table, sizeof table, message, message_len, code, sizeof code, mask,
                              sizeof mask);
}

/* Whether the reply is a success that names no field. */
static int done(struct beaker_reply reply) {
    struct beaker_reply expected = {.flag = 1};
    return memcmp(&reply, &expected, sizeof reply) == 0;
}

/* Whether the reply is this refusal, and no other field is named. */
static int refused(struct beaker_reply reply, uint8_t code_len, uint8_t first, uint8_t second) {
    struct beaker_reply expected = {.code_len = code_len, .code = {first, second}};
    return memcmp(&reply, &expected, sizeof reply) == 0;
}

static void set_up_and_turn(void) {
    HOLDS(refused(beaker_turn(table, sizeof table, first_key, sizeof first_key), 2, 0x66, 0xef));
    HOLDS(refused(beaker_set_up(table, 768, first_key, sizeof first_key, address, sizeof address,
                                kernel_address, sizeof kernel_address),
                  2, 0x66, 0xe7));
    HOLDS(done(beaker_set_up(table, sizeof table, first_key, sizeof first_key, address,
                             sizeof address, kernel_address, sizeof kernel_address)));
    HOLDS(done(beaker_turn(table, sizeof table, first_key, sizeof first_key)));
    HOLDS(refused(beaker_turn(table, sizeof table, first_key, 23), 2, 0x66, 0xed));
    HOLDS(refused(beaker_turn(table, sizeof table, second_key, sizeof second_key), 2, 0x66, 0x33));
}

/* Registering a procedure that may write addresses 1 and 2, and may set the entry. */
static void register_one(void) {
    uint8_t message[DATA + 9 * WORD] = {REGISTER};
    uint8_t *words = message + DATA;
    words[2 * WORD - 1] = 0x02;  /* key */
    words[3 * WORD - 1] = 0x33;  /* address */
    words[4 * WORD - 1] = 3;     /* size, */
    words[5 * WORD - 1] = WRITE; /* type, */
    words[6 * WORD - 1] = 1;     /* base */
    words[7 * WORD - 1] = 1;     /* and additional of a Write capability */
    words[8 * WORD - 1] = 1;     /* size */
    words[9 * WORD - 1] = 6;     /* and type of a Set Entry capability */
    struct beaker_reply expected = {.flag = 1, .tests = 2};
    struct beaker_reply reply = call(message, sizeof message);
    HOLDS(memcmp(&reply, &expected, sizeof reply) == 0);
    HOLDS(refused(call(message, sizeof message), 2, 0x66, 0xe1));
}

static void call_it(void) {
    uint8_t message[DATA + 2 * WORD + 3] = {CALL};
    message[2 * WORD] = 0x02;
    memcpy(message + DATA + 2 * WORD, "bed", 3);
    struct beaker_reply expected = {.flag = 1, .payload_at = 65, .payload_len = 3};
    expected.address[19] = 0x33;
    struct beaker_reply reply = call(message, sizeof message);
    HOLDS(memcmp(&reply, &expected, sizeof reply) == 0);
    HOLDS(memcmp(message + reply.payload_at, "bed", reply.payload_len) == 0);
    HOLDS(refused(call(message, 64), 2, 0x66, 0xe0));
}

static void write_and_look(void) {
    uint8_t message[DATA + 3 * WORD] = {WRITE};
    uint8_t slot[WORD] = {[31] = 0x80};
    memcpy(message + DATA + WORD, slot, WORD);
    message[3 * WORD] = 12;
    HOLDS(done(call(message, sizeof message)));
    struct beaker_reply expected = {.flag = 1};
    expected.value[31] = 12;
    struct beaker_reply reply = beaker_look(table, sizeof table, slot, sizeof slot);
    HOLDS(memcmp(&reply, &expected, sizeof reply) == 0);
    memset(message + DATA + WORD, 0xff, 4);
    HOLDS(refused(call(message, sizeof message), 1, 0x33, 0));
}

static void delete_it(void) {
    uint8_t message[DATA + 2 * WORD] = {DELETE};
    message[2 * WORD] = 0x02;
    HOLDS(done(call(message, sizeof message)));
    HOLDS(refused(call(message, sizeof message), 2, 0x66, 0x33));
}

static void print_places(void) {
    PRINT_PLACE(tests);
    PRINT_PLACE(payload_at);
    PRINT_PLACE(payload_len);
    PRINT_PLACE(address);
    PRINT_PLACE(value);
    PRINT_PLACE(flag);
    PRINT_PLACE(code_len);
    PRINT_PLACE(code);
    printf("in all %zu, aligned to %zu\n", sizeof(struct beaker_reply),
           _Alignof(struct beaker_reply));
}

int main(void) {
    const uint8_t null_message[1] = {0};
    const uint8_t overlong[2] = {0, 0};
    const uint8_t unknown[1] = {1};
    set_up_and_turn();
    register_one();
    call_it();
    write_and_look();
    delete_it();
    HOLDS(done(call(null_message, 1)));
    HOLDS(refused(call(overlong, 2), 2, 0x66, 0xeb));
    HOLDS(refused(call(unknown, 1), 1, 0xaa, 0));
    HOLDS(refused(call(null_message, 0), 2, 0x66, 0xe0));
    print_places();
    return 0;
}
