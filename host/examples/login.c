/*
 * Makes a card for a password, then checks a login against it: prints yes.
 *
 *     cc -Ihost/include host/examples/login.c "$(host/library)" -o login && ./login
 */
#include <stdio.h>
#include <stdlib.h>
#include <string.h>

#include "rinnamoyle.h"

enum { EXPONENT = RINNAMOYLE_HOUSE_EXPONENT, R = RINNAMOYLE_HOUSE_R, P = RINNAMOYLE_HOUSE_P, KEY = 32 };

static const uint64_t N = (uint64_t)1 << EXPONENT;

/* The bytes of a string, as the library wants them: never NULL, and their number. */
#define BYTES(string) (const uint8_t *)(string), strlen(string)

/* Derives the card's key from the password and writes the card; its length, or 0 after a word on what was refused. */
static uint64_t make_card(const char *password, const char *salt, uint8_t *scratch, uint64_t scratch_len,
                          uint64_t allowance, uint8_t *room, uint64_t room_len) {
    uint8_t key[KEY];
    struct rinnamoyle_derived derived =
        rinnamoyle_derive(BYTES(password), BYTES(salt), N, R, P, key, sizeof key, scratch, scratch_len, allowance);
    if (derived.number != 0) {
        fprintf(stderr, "the derivation is refused with %u\n", (unsigned)derived.number);
        return 0;
    }
    struct rinnamoyle_written written =
        rinnamoyle_card_write(BYTES(salt), key, sizeof key, EXPONENT, R, P, room, room_len);
    if (written.number != 0)
        fprintf(stderr, "the card is refused with %u\n", (unsigned)written.number);
    return written.length;
}

static int say(struct rinnamoyle_answer told) {
    static const char *const desks[] = {"no", "card", "text", "derivation"};
    if (told.answer == RINNAMOYLE_REFUSED)
        printf("refused by the %s desk with %u\n", desks[told.desk], (unsigned)told.number);
    else
        puts(told.answer == RINNAMOYLE_YES ? "yes" : "no");
    return (int)(told.answer == RINNAMOYLE_YES ? 0 : told.answer == RINNAMOYLE_NO ? 1 : 2);
}

int main(void) {
    /* A quarter of the blocks stored: 4 MiB in the place of 16, and at worst five mixings where k = 1 makes two. */
    const uint64_t k = 4, scratch_len = RINNAMOYLE_SCRATCH(N, R, P, k), allowance = RINNAMOYLE_WORST(N, P, k);
    uint8_t *scratch = malloc(scratch_len);
    if (scratch == NULL) {
        fputs("no memory for the scratch\n", stderr);
        return 2;
    }
    /* A real salt is random, and another for each card. */
    uint8_t card[RINNAMOYLE_CARD_MOST];
    uint64_t card_len = make_card("open sesame", "Rinnamoyle salt", scratch, scratch_len, allowance, card, sizeof card);
    int status = 2;
    if (card_len != 0)
        status = say(rinnamoyle_login(BYTES("rover:open sesame"), card, card_len, scratch, scratch_len, allowance));
    free(scratch);
    return status;
}
