/*
 * Rinnamoyle: a scrypt (RFC 7914) login box. Five calls, proved.
 *
 * Link librinnamoyle.a, which host/library makes for the processor at hand (x86-64 or aarch64, Linux) and whose path it
 * prints:
 *
 *     cc -Ihost/include program.c "$(host/library)"
 *
 * host/examples/login.c is a whole program to copy from.
 *
 *
 * WHAT HOLDS FOR EVERY CALL
 *
 * Memory. Every buffer is yours. A call needs no heap, keeps no pointer and no memory of itself when it returns, and
 * reads no file, clock or setting. It may be made from any thread, from several at once if what they write is apart.
 * A stack of 64 KiB is enough, whatever the costs.
 *
 * Slices. A slice is a pointer and the number of bytes behind it, any number from 0 on. Bytes need no alignment. The
 * pointer is never NULL, not even where the length is 0 (malloc(0) may give NULL): there it may be any other pointer,
 * dangling ones too, and no byte behind it is touched.
 *
 * Overlap. A buffer that a call writes (key, scratch, room) overlaps with no other buffer of that call. Two buffers
 * that are only read may overlap.
 *
 * Units. Lengths and places are bytes. A block is 128*r bytes. A mixing is one BlockMix (RFC 7914, section 4), and
 * the allowance counts mixings. All numbers are unsigned and 64 bits wide, and may have any value: nothing wraps on
 * the way to an answer.
 *
 * Refusals. `number` is 0 where nothing is refused, else the number of the first rule below that applies, and every
 * other field is then 0. A refused call has written nothing: every byte that was lent is as it was. What lay in a
 * buffer that is to be written has no part in any answer.
 *
 *
 * THE RULES, in the order in which they are looked at
 *
 *   A derivation
 *     1  the passphrase has over 1,024 bytes
 *     2  the salt has over 1,024 bytes
 *     3  the key buffer is empty or has over 256 bytes
 *     4  r is 0 or over 32
 *     5  p is 0 or over 64
 *     6  N is below 2 or not a power of two
 *     7  N is over 1,048,576 (2^20), or not below 2^(16*r): with r = 1 N is at most 32,768
 *     8  the scratch holds fewer than p + 4 whole blocks
 *     9  the worst case, p*N*(k + 1) mixings, is above the allowance (k: see rinnamoyle_derive)
 *
 *   A card
 *    21  it has under 12 bytes
 *    22  its last four bytes are not RTKC
 *    23  its edition is not 1
 *    24  the key has not 16 to 64 bytes, or the salt not 8 to 64, or salt, key and trailer are not the whole card
 *    25  the exponent is not 1 to 20, or r, p or N = 2^exponent is what 4, 5 or 7 refuses
 *    26  (writing) the room is shorter than the card
 *
 *   A login text
 *    31  it has no colon
 *    32  the user name is empty or has over 64 bytes
 */
#ifndef RINNAMOYLE_H
#define RINNAMOYLE_H

#include <stdint.h>

#ifdef __cplusplus
extern "C" {
#endif

/* The house default cost: N = 2^14, r = 8, p = 1. All blocks stored take a little over 16 MiB. */
#define RINNAMOYLE_HOUSE_EXPONENT 14
#define RINNAMOYLE_HOUSE_R 8
#define RINNAMOYLE_HOUSE_P 1

/* The shortest scratch for a spacing k, 1 for every block stored. N, r, p and k as below, none of them refused. */
#define RINNAMOYLE_SCRATCH(n, r, p, k) (((uint64_t)(n) / (k) + (p) + 3) * 128 * (r))

/* The most mixings at a spacing k: the allowance that is enough. */
#define RINNAMOYLE_WORST(n, p, k) ((uint64_t)(p) * (n) * ((k) + 1))

/* The most bytes that a card has: salt, key and trailer. */
#define RINNAMOYLE_CARD_MOST (64 + 64 + 12)


/*
 * DERIVE A KEY
 *
 * Fills `key` with scrypt of passphrase and salt at the costs N, r and p. A key of 1 to 256 bytes; a shorter one is
 * the start of a longer one.
 *
 * The scratch decides how much is stored, never what the key is. With F whole blocks in it, p of them hold the lanes
 * and 3 are working room; the spacing k is the smallest power of two with N/k + p + 3 at most F. Every k-th of the N
 * blocks is stored, and any other is found by mixing forward from the stored one before it. So k = 1 is the quickest
 * and wants most scratch, k = N wants p + 4 blocks and is slow.
 *
 * The allowance is the most mixings that you will pay for, p*N*(k + 1) at worst: with k = 1 exactly 2*p*N are made.
 * Whether a derivation is refused, and k, are known from the lengths, the costs and the allowance alone.
 *
 * Accepted: `key` is filled, the scratch is zero to its last byte, and the report says k, N/k and the mixings made.
 * Refused with 1 to 9: key and scratch keep every byte.
 */
struct rinnamoyle_derived {
    uint64_t number;
    uint64_t spacing; /* k */
    uint64_t stored;  /* N/k blocks */
    uint64_t mixings; /* made, in all lanes */
};

struct rinnamoyle_derived rinnamoyle_derive(
    const uint8_t *pass, uint64_t pass_len,
    const uint8_t *salt, uint64_t salt_len,
    uint64_t n, uint64_t r, uint64_t p,
    uint8_t *key, uint64_t key_len,
    uint8_t *scratch, uint64_t scratch_len,
    uint64_t allowance);


/*
 * READ A CARD
 *
 * A card is a salt, a key and a trailer of 12 bytes: the distance from the trailer's first byte back to the salt's
 * (2 bytes, little-endian), the same for the key, the edition (1), the cost exponent, r, p, and RTKC. N is 2 to the
 * power of the exponent: do not pass one for the other.
 *
 * Accepted: the costs, and the salt and the key as parts of the card: card + salt_at, salt_len bytes, and so on.
 * Refused with 21 to 25. The card is only read.
 */
struct rinnamoyle_card {
    uint64_t number;
    uint64_t exponent;
    uint64_t r;
    uint64_t p;
    uint64_t salt_at;
    uint64_t salt_len;
    uint64_t key_at;
    uint64_t key_len;
};

struct rinnamoyle_card rinnamoyle_card_read(const uint8_t *card, uint64_t card_len);


/*
 * WRITE A CARD
 *
 * Accepted: the card lies at the front of the room, its length is returned, and the room's other bytes are as they
 * were. Refused with 24 (a length of salt or key), 25 or 26: the room keeps every byte.
 */
struct rinnamoyle_written {
    uint64_t number;
    uint64_t length;
};

struct rinnamoyle_written rinnamoyle_card_write(
    const uint8_t *salt, uint64_t salt_len,
    const uint8_t *key, uint64_t key_len,
    uint64_t exponent, uint64_t r, uint64_t p,
    uint8_t *room, uint64_t room_len);


/*
 * TAKE A LOGIN TEXT APART
 *
 * The text is user:password. The password is everything after the last colon and may be empty, the user name is
 * everything before it: the text's first user_len bytes, and password_len bytes from text + password_at on.
 * Refused with 31 or 32. The text is only read.
 */
struct rinnamoyle_text {
    uint64_t number;
    uint64_t user_len;
    uint64_t password_at;
    uint64_t password_len;
};

struct rinnamoyle_text rinnamoyle_text_read(const uint8_t *text, uint64_t text_len);


/*
 * CHECK A LOGIN
 *
 * Looks at the card (21 to 25), then at the text (31, 32), then derives a key of the card's key length from the
 * password with the card's salt and costs (of 1 to 9 only 1, 8 and 9 can come), and compares it with the card's key.
 * The user name is looked at for its shape alone.
 *
 * Yes or no: the scratch is zero to its last byte, `desk` and `number` are 0.
 * Refused: `desk` says who refused, `number` why; the scratch keeps every byte.
 * Text and card are only read.
 */
enum { RINNAMOYLE_NO = 0, RINNAMOYLE_YES = 1, RINNAMOYLE_REFUSED = 2 };
enum { RINNAMOYLE_NO_DESK = 0, RINNAMOYLE_CARD_DESK = 1, RINNAMOYLE_TEXT_DESK = 2, RINNAMOYLE_DERIVATION_DESK = 3 };

struct rinnamoyle_answer {
    uint64_t answer;
    uint64_t desk;
    uint64_t number;
};

struct rinnamoyle_answer rinnamoyle_login(
    const uint8_t *text, uint64_t text_len,
    const uint8_t *card, uint64_t card_len,
    uint8_t *scratch, uint64_t scratch_len,
    uint64_t allowance);

#ifdef __cplusplus
}
#endif

#endif
