/*
 * The vectors once more, through the header and by C's way of calling: each line of the first file that asks for one of the
 * five calls is run, every buffer ending at a page that may not be touched, and held to the same line of the second.
 *
 *     lines crates/vectors/stdin crates/vectors/stdout
 *
 * Where all are alike it says how many there were; else it says which line is not, and ends with 1.
 */
#define _DEFAULT_SOURCE
#include <stdio.h>
#include <stdlib.h>
#include <string.h>
#include <sys/mman.h>
#include <unistd.h>

#include "rinnamoyle.h"

enum { LENT = 0xa5 };

struct bytes {
    uint8_t *at;
    uint64_t length;
};

static void stop(const char *words) {
    fprintf(stderr, "lines: %s\n", words);
    exit(1);
}

/* LENDING: the bytes end where a page begins that may be neither read nor written. */

static struct bytes lent[4]; /* to the call of this line */
static size_t lent_count;

static uint64_t page(void) { return (uint64_t)sysconf(_SC_PAGESIZE); }

static uint64_t whole_pages(uint64_t length) { return (length + page() - 1) / page() * page(); }

static struct bytes lend(uint64_t length) {
    uint64_t pages = whole_pages(length);
    uint8_t *at = mmap(NULL, pages + page(), PROT_READ | PROT_WRITE, MAP_PRIVATE | MAP_ANONYMOUS, -1, 0);
    if (at == MAP_FAILED || mprotect(at + pages, page(), PROT_NONE) != 0)
        stop("no memory to lend");
    struct bytes made = {at + pages - length, length};
    memset(made.at, LENT, length);
    lent[lent_count++] = made;
    return made;
}

static void take_all_back(void) {
    while (lent_count > 0) {
        struct bytes last = lent[--lent_count];
        uint64_t pages = whole_pages(last.length);
        munmap(last.at + last.length - pages, pages + page());
    }
}

/* READING A LINE'S FIELDS */

static char *rest; /* of the line */

static const char *word(void) {
    const char *found = strsep(&rest, " ");
    if (found == NULL)
        stop("a line has too few fields");
    return found;
}

static uint64_t number(void) { return strtoull(word(), NULL, 10); }

/* `-`, hexadecimal digits, or such digits and how many times over. */
static struct bytes bytes(void) {
    const char *digits = word();
    uint64_t once = strspn(digits, "0123456789abcdef") / 2;
    const char *star = strchr(digits, '*');
    uint64_t times = star == NULL ? 1 : strtoull(star + 1, NULL, 10);
    struct bytes made = lend(once * times);
    for (uint64_t i = 0; i < made.length; i++) {
        const char pair[3] = {digits[2 * (i % once)], digits[2 * (i % once) + 1], 0};
        made.at[i] = (uint8_t)strtoul(pair, NULL, 16);
    }
    return made;
}

/* SAYING WHAT CAME OUT */

static char said[1 << 20];
static size_t end;

static void say(const char *words) {
    size_t length = strlen(words);
    if (length >= sizeof said - end)
        stop("an answer is too long");
    memcpy(said + end, words, length + 1);
    end += length;
}

static void say_number(const char *label, uint64_t n) {
    char digits[24];
    snprintf(digits, sizeof digits, "%llu", (unsigned long long)n);
    say(label);
    say(digits);
}

static void say_bytes(const char *label, const uint8_t *at, uint64_t length) {
    say(label);
    if (length == 0)
        say("-");
    for (uint64_t i = 0; i < length; i++) {
        char pair[3];
        snprintf(pair, sizeof pair, "%02x", at[i]);
        say(pair);
    }
}

static int each_is(struct bytes buffer, uint8_t byte) {
    for (uint64_t i = 0; i < buffer.length; i++)
        if (buffer.at[i] != byte)
            return 0;
    return 1;
}

static void say_buffer(const char *label, struct bytes buffer) {
    if (!each_is(buffer, 0) && !each_is(buffer, LENT)) {
        say_bytes(label, buffer.at, buffer.length);
        return;
    }
    say(label);
    say(each_is(buffer, 0) ? "zero" : "kept");
}

/* THE FIVE CALLS */

static void derive(void) {
    struct bytes pass = bytes(), salt = bytes();
    uint64_t n = number(), r = number(), p = number();
    struct bytes key = lend(number()), scratch = lend(number());
    struct rinnamoyle_derived told = rinnamoyle_derive(pass.at, pass.length, salt.at, salt.length, n, r, p, key.at, key.length,
                                                       scratch.at, scratch.length, number());
    say_number("derive ", told.number);
    say_number(" spacing ", told.spacing);
    say_number(" stored ", told.stored);
    say_number(" mixings ", told.mixings);
    say_buffer(" key ", key);
    say_buffer(" scratch ", scratch);
}

static void card(void) {
    struct bytes whole = bytes();
    struct rinnamoyle_card told = rinnamoyle_card_read(whole.at, whole.length);
    say_number("card ", told.number);
    say_number(" exponent ", told.exponent);
    say_number(" r ", told.r);
    say_number(" p ", told.p);
    say_bytes(" salt ", whole.at + told.salt_at, told.salt_len);
    say_bytes(" key ", whole.at + told.key_at, told.key_len);
}

static void write_card(void) {
    struct bytes salt = bytes(), key = bytes();
    uint64_t exponent = number(), r = number(), p = number();
    struct bytes room = lend(number());
    struct rinnamoyle_written told =
        rinnamoyle_card_write(salt.at, salt.length, key.at, key.length, exponent, r, p, room.at, room.length);
    say_number("write ", told.number);
    say_number(" length ", told.length);
    say_buffer(" room ", room);
}

static void text(void) {
    struct bytes whole = bytes();
    struct rinnamoyle_text told = rinnamoyle_text_read(whole.at, whole.length);
    say_number("text ", told.number);
    say_bytes(" user ", whole.at, told.user_len);
    say_bytes(" password ", whole.at + told.password_at, told.password_len);
}

static void login(void) {
    static const char *const desks[] = {"", "card ", "text ", "derivation "};
    struct bytes given = bytes(), against = bytes(), scratch = lend(number());
    struct rinnamoyle_answer told =
        rinnamoyle_login(given.at, given.length, against.at, against.length, scratch.at, scratch.length, number());
    if (told.answer == RINNAMOYLE_REFUSED) {
        say("login refused ");
        say_number(desks[told.desk % 4], told.number);
    } else {
        say(told.answer == RINNAMOYLE_YES ? "login yes" : "login no");
    }
    say_buffer(" scratch ", scratch);
}

static const struct {
    const char *name;
    void (*run)(void);
} calls[] = {{"derive", derive}, {"card", card}, {"write", write_card}, {"text", text}, {"login", login}};

/* Whether the line is one of the five calls'; it is run then. */
static int run(char *line) {
    rest = line;
    end = 0;
    const char *name = word();
    for (size_t i = 0; i < sizeof calls / sizeof *calls; i++)
        if (strcmp(name, calls[i].name) == 0) {
            calls[i].run();
            take_all_back();
            return 1;
        }
    return 0;
}

/* The next line without its end, NULL after the last. */
static char *next(FILE *file, char **line, size_t *room) {
    ssize_t length = getline(line, room, file);
    if (length < 0)
        return NULL;
    (*line)[strcspn(*line, "\n")] = 0;
    return *line;
}

static FILE *opened(const char *path) {
    FILE *file = fopen(path, "r");
    if (file == NULL) {
        perror(path);
        exit(1);
    }
    return file;
}

int main(int count, char **names) {
    if (count != 3)
        stop("two files are wanted, the lines and what they must give");
    FILE *asked = opened(names[1]), *wanted = opened(names[2]);
    char *line = NULL, *must = NULL;
    size_t rooms[2] = {0, 0};
    unsigned long at = 0, tried = 0;
    while (next(asked, &line, &rooms[0]) != NULL) {
        at++;
        if (next(wanted, &must, &rooms[1]) == NULL)
            stop("the second file is shorter");
        /* What a malformed line gets is the vectors' own program's to say, and so is the length that a card claims. */
        if (strcmp(must, "malformed") == 0 || !run(line))
            continue;
        char *claims = strstr(must, " claims ");
        if (claims != NULL)
            *claims = 0;
        if (strcmp(said, must) != 0) {
            fprintf(stderr, "lines: line %lu gives\n%s\nand must give\n%s\n", at, said, must);
            return 1;
        }
        tried++;
    }
    printf("%lu lines of the five calls\n", tried);
    return tried == 0;
}
