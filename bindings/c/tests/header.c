/* Looks at headers that are made here of known stanzas, at each of their cuts, at faulty ones, and
 * at one of many stanzas, by agefile_header and agefile_stanzas. */
#include "agefile.h"

#include <stdio.h>
#include <stdlib.h>
#include <string.h>
#include <time.h>

#define SALT "AAAAAAAAAAAAAAAAAAAAAA"
#define SHARE "Y4OC5dPKQNGTlZbR6ZAEl/zzlXpPdeDUc++aVmZwUho"
#define MANY ((size_t)20000)
#define FRONT_MAX 1048592

struct stanza {
    const char *args;
    size_t body_len; /* its bytes are 1, 2, 3 and so on */
};

static int failed;
static uint8_t front[FRONT_MAX], out[FRONT_MAX];
static agefile_stanza places[MANY];
static const size_t looked =
    16 * sizeof *places; /* bytes of them, more than the small headers have */
static size_t len;

static void see(int holds, const char *what) {
    if (!holds)
        printf("wrong: %s\n", what), failed = 1;
}

static void put(const char *text) {
    memcpy(front + len, text, strlen(text));
    len += strlen(text);
}

/* a body's base64 in lines, the last of which is shorter than 64 characters */
static void put_body(size_t body_len) {
    static const char letters[] =
        "ABCDEFGHIJKLMNOPQRSTUVWXYZabcdefghijklmnopqrstuvwxyz0123456789+/";
    size_t column = 0;
    for (size_t bit = 0; bit < 8 * body_len; bit += 6) {
        unsigned at = (unsigned)(bit / 8),
                 two = (at + 1) % 256 << 8 | (at + 1 < body_len ? (at + 2) % 256 : 0);
        front[len++] = (uint8_t)letters[two >> (10 - bit % 8) & 63];
        if (++column == 64)
            front[len++] = '\n', column = 0;
    }
    front[len++] = '\n';
}

static void make(const struct stanza *stanzas, size_t count) {
    len = 0;
    put("age-encryption.org/v1\n");
    for (size_t i = 0; i < count; i++) {
        put("-> "), put(stanzas[i].args), put("\n");
        put_body(stanzas[i].body_len);
    }
    put("--- AAAAAAAAAAAAAAAAAAAAAAAAAAAAAAAAAAAAAAAAAAA\n");
}

/* what a call answers about the first `have` bytes, which told nothing */
static int refused(size_t have) {
    size_t header_len = 77, count = 77, told = 77, written = 77;
    uint32_t work = 77;
    int answer = agefile_header(have ? front : NULL, have, &header_len, &count, &work);
    see(answer != 0 && header_len == 0 && count == 0 && work == 0, "a refusal tells nothing");
    see(agefile_stanzas(have ? front : NULL, have, places, MANY, &told, out, sizeof out,
                        &written) == answer &&
            told == 0 && written == 0,
        "the stanzas are refused as the header is");
    return answer;
}

static void is_stanza(const struct stanza *stanza, const agefile_stanza *it) {
    see(it->args_len == strlen(stanza->args) &&
            memcmp(front + it->args_at, stanza->args, it->args_len) == 0,
        "its arguments");
    see(memcmp(front + it->args_at - 3, "-> ", 3) == 0 && front[it->args_at + it->args_len] == '\n',
        "where they stand");
    see(it->body_len == stanza->body_len, "how long its body is");
    for (size_t i = 0; i < it->body_len; i++)
        see(out[it->body_at + i] == (i + 1) % 256, "its body");
}

/* what too little room leaves: `room` bytes, and places */
static void has_no_room(size_t more, size_t most, size_t room) {
    size_t told = 77, written = 77;
    memset(places, 99, looked);
    memset(out, 99, room);
    see(agefile_stanzas(front, more, places, most, &told, out, room, &written) == AGEFILE_NO_ROOM &&
            told == 0 && written == 0,
        "too little room");
    for (size_t i = 0; i < looked; i++)
        see(((uint8_t *)places)[i] == 99, "no place is told");
    for (size_t i = 0; i < room; i++)
        see(out[i] == 99, "no body is told");
}

static void is_told(const struct stanza *stanzas, size_t count, uint32_t work) {
    size_t header_len = 77, told = 77, written = 77, more = len, bodies = 0;
    uint32_t told_work = 77;
    make(stanzas, count);
    for (size_t i = 0; i < count; i++)
        bodies += stanzas[i].body_len;
    for (more = len; more < len + 20; more += 19) {
        see(agefile_header(front, more, &header_len, &told, &told_work) == 0 && header_len == len &&
                told == count,
            "a header is told");
        if (told_work != work)
            printf("%s: work %u, not %u\n", stanzas[0].args, told_work, work), failed = 1;
        for (size_t most = count; most < count + 2; most++) {
            memset(places, 99, looked);
            memset(out, 99, more);
            see(agefile_stanzas(front, more, places, most, &told, out, more, &written) == 0 &&
                    told == count,
                "all stanzas are told");
            for (size_t i = 0; i < count; i++)
                is_stanza(&stanzas[i], &places[i]);
            for (size_t i = count * sizeof *places; i < looked; i++)
                see(((uint8_t *)places)[i] == 99, "a place past the last");
            see(written == bodies, "how long all bodies are");
            for (size_t i = written; i < more; i++)
                see(out[i] == 99, "a byte past the bodies");
        }
        has_no_room(more, count - 1, more);
        has_no_room(more, 0, more);
        has_no_room(more, count, len - 1);
        has_no_room(more, count, 0);
    }
}

static void work_factors(void) {
    static const struct {
        const char *args;
        size_t body_len;
        uint32_t work;
    } rows[] = {
        {"scrypt " SALT " 1", 32, 1},
        {"scrypt " SALT " 18", 32, 18},
        {"scrypt " SALT " 4294967295", 32, UINT32_MAX},
        {"scrypt " SALT " 4294967296", 32, UINT32_MAX},
        {"scrypt " SALT " 99999999999999999999", 32, UINT32_MAX},
        {"scrypt " SALT " 0", 32, 0},
        {"scrypt " SALT " 018", 32, 0},
        {"scrypt " SALT " +18", 32, 0},
        {"scrypt " SALT " 18x", 32, 0},
        {"scrypt " SALT " 18", 31, 0},
        {"scrypt " SALT " 18", 33, 0},
        {"scrypt " SALT "A 18", 32, 0},
        {"scrypt " SALT " 18 1", 32, 0},
        {"scrypt 18", 32, 0},
        {"scrypt AAAAAAAAAAAAAAAAAAAAAB 18", 32, 0},
        {"Scrypt " SALT " 18", 32, 0},
        {"X25519 " SHARE, 32, 0},
    };
    for (size_t i = 0; i < sizeof rows / sizeof *rows; i++) {
        const struct stanza one = {rows[i].args, rows[i].body_len};
        is_told(&one, 1, rows[i].work);
    }
    const struct stanza two[] = {{"scrypt " SALT " 18", 32}, {"X25519 " SHARE, 32}};
    is_told(two, 2, 0);
}

/* A header of many stanzas is told in a moment: to read the whole header for each of them would
 * take minutes. */
static void many(void) {
    static struct stanza stanzas[MANY];
    static const struct stanza kinds[] = {{"a", 3}, {"b c", 0}, {"d", 48}};
    size_t told = 77, written = 77;
    clock_t begin;
    for (size_t i = 0; i < MANY; i++)
        stanzas[i] = kinds[i % 3];
    make(stanzas, MANY);
    begin = clock();
    see(agefile_stanzas(front, len, places, MANY, &told, out, len, &written) == 0 && told == MANY,
        "many stanzas are told");
    see(clock() - begin < 20 * CLOCKS_PER_SEC, "they are told in a moment");
    for (size_t i = 0; i < MANY; i++)
        is_stanza(&stanzas[i], &places[i]);
}

int main(void) {
    static const struct stanza all[] = {
        {"X25519 " SHARE, 32},
        {"a", 0},
        {"!~ -> --- ~", 1},
        {"p256tag AAAA BBBB", 47},
        {"b", 48},
        {"c d e f g h i j k", 49},
        {"d", 96},
        {"mlkem768x25519", 1200},
        {"X25519 " SHARE, 32},
    };
    work_factors();
    for (size_t count = 1; count <= sizeof all / sizeof *all; count++)
        is_told(all, count, 0);
    for (size_t have = 0; have < len; have++)
        see(refused(have) == AGEFILE_CUT_IN_HEADER, "a header that is cut");
    make(all, 1);
    front[len - 2] = 'B'; /* a bit that the base64 leaves unused */
    see(refused(len) == AGEFILE_BAD_END_LINE, "an end line that is faulty");
    make(all, 0);
    see(refused(len) == AGEFILE_NO_STANZA, "no stanza");
    make(&(const struct stanza){"a  b", 0}, 1);
    see(refused(len) == AGEFILE_BAD_STANZA_LINE, "two spaces");
    front[0] = 'b';
    see(refused(len) == AGEFILE_NOT_AGE, "no age file");
    many();
    printf("%s\n", failed ? "failed" : "passed");
    return failed;
}
