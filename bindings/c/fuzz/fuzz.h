/* fuzz.h: what the fuzzers share. What a call is given stands before a page that nobody may touch,
 * so that a byte too many is seen also in the proved code, which the sanitizers don't know. */
#include "cover.h"

#include "../core.h"
#include "reference.h"

#include <stdio.h>
#include <string.h>
#include <sys/mman.h>

#define CHECK(it)                                                                                  \
    do {                                                                                           \
        if (!(it))                                                                                 \
            fprintf(stderr, "%s:%d: not so: %s\n", __FILE__, __LINE__, #it), abort();              \
    } while (0)
enum { MOST = 1 << 21 };

typedef struct {
    uint8_t *end;
} guarded;
static guarded bytes_room, out_room, more_room;

static guarded guarded_room(void) {
    uint8_t *at =
        mmap(NULL, MOST + 4096, PROT_READ | PROT_WRITE, MAP_PRIVATE | MAP_ANONYMOUS, -1, 0);
    CHECK(at != MAP_FAILED && mprotect(at + MOST, 4096, PROT_NONE) == 0);
    return (guarded){at + MOST};
}
/* So many bytes before the page; NULL if there are none, which each call takes. */
static uint8_t *in_room(guarded room, size_t len) {
    CHECK(len <= MOST);
    return len ? room.end - len : NULL;
}
static uint8_t *copied(guarded room, const uint8_t *from, size_t len) {
    uint8_t *to = in_room(room, len);
    if (len)
        memcpy(to, from, len);
    return to;
}
static uint8_t *filled(guarded room, size_t len) {
    uint8_t *to = in_room(room, len);
    if (len)
        memset(to, 0xaa, len);
    return to;
}
/* Whether nothing was written from a place on. */
static int is_untouched(const uint8_t *room, size_t from, size_t len) {
    for (size_t i = from; i < len; i++)
        if (room[i] != 0xaa)
            return 0;
    return 1;
}

/* The bytes of the fuzzer, one after the other; zeros once there are none. */
static const uint8_t *at_fuzz, *end_fuzz;
static unsigned draw(void) { return at_fuzz < end_fuzz ? *at_fuzz++ : 0; }
static unsigned draw2(void) {
    unsigned low = draw();
    return low | draw() << 8;
}
/* A room for a call that needs so much: just enough, a byte less, or more. */
static size_t draw_room(size_t need) {
    unsigned how = draw() % 16;
    return how == 15 && need ? need - 1 : how == 14 ? need + 777 : need;
}

static void fill(uint8_t *to, size_t len, unsigned factor) {
    for (size_t i = 0; i < len; i++)
        to[i] = (uint8_t)(i * factor ^ i >> 8);
}
static int begin_fuzz(void) {
    bytes_room = guarded_room(), out_room = guarded_room(), more_room = guarded_room();
    cover((const void *)age_c_header);
    return 0;
}
