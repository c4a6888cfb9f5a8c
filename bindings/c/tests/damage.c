/* Damages files at random and reads them: cuts, changed bytes, blocks that are swapped, repeated,
 * removed, or another file's, bytes put into the header or after the end. Some are also read as
 * they are. What a file has to give is known without the library, by comparing it with what its
 * writer wrote: the text of the blocks that it begins with as they were, no byte more or less, and
 * 0 at the end only if no byte of it differs. A fault has to stay whatever is called after it. What
 * the calls are given lies between pages that nobody may touch.
 *
 * usage: damage [FILES [SEED [FLAW]]]
 *
 * It damages 50,000 files, and prints the seed, which comes from the clock. Each file has a seed of
 * its own, which a report names: with FILES 1 and that seed, that file comes again. With a FLAW,
 * which is a word of the list below, the reader is wrong on purpose, and the status has to be 1: so
 * this test can fail.
 */
#define _GNU_SOURCE
#include "agefile.h"

#include <signal.h>
#include <stdarg.h>
#include <stdio.h>
#include <stdlib.h>
#include <string.h>
#include <sys/mman.h>
#include <sys/random.h>
#include <time.h>
#include <unistd.h>

#define PAGE ((size_t)4096)
#define TAG ((size_t)16)
#define NONCE ((size_t)16)
#define MOST ((size_t)8 * AGEFILE_BLOCK) /* bytes of a damaged file */
#define UNTOUCHED 9

/* ---- random numbers ---- */

static uint64_t seed, file_seed;

/* (splitmix64: seeds that follow one another give numbers that have nothing in common) */
static uint64_t next(void) {
    uint64_t z = file_seed += UINT64_C(0x9e3779b97f4a7c15);
    z = (z ^ z >> 30) * UINT64_C(0xbf58476d1ce4e5b9);
    z = (z ^ z >> 27) * UINT64_C(0x94d049bb133111eb);
    return z ^ z >> 31;
}

static size_t below(size_t limit) { return (size_t)(next() % limit); }

static void randomize(uint8_t *at, size_t len) {
    for (size_t i = 0; i < len; i++)
        at[i] = (uint8_t)next();
}

/* ---- what is found ---- */

/* what has to hold */
enum { OPENED, TEXT, AFTER, WHOLE, STAYS, RULES };
static const char *const rules[RULES] = {
    "a header opens if, and only if, no byte of it differs",
    "the text is that of the blocks before the first that differs, all of it",
    "a call that doesn't return 0 writes nothing, and one without room changes nothing",
    "an end returns 0 if, and only if, no byte of the file differs",
    "a fault stays, and nothing comes after the end",
};
static long wrong[RULES];
static uint64_t this_file;

static void report(int rule, const char *form, ...) {
    va_list more;
    va_start(more, form);
    if (wrong[rule]++ < 3) {
        printf("seed %llu: ", (unsigned long long)this_file);
        vprintf(form, more);
        putchar('\n');
    }
    va_end(more);
}

/* A page beside what was given was touched. */
static void on_fault(int signal_number) {
    static const char line[] = "memory beside what was given was touched: seed ";
    char digits[20];
    size_t at = sizeof digits;
    uint64_t left = this_file;
    (void)signal_number;
    do
        digits[--at] = (char)('0' + left % 10);
    while ((left /= 10) > 0);
    if (write(1, line, sizeof line - 1) < 0 || write(1, digits + at, sizeof digits - at) < 0 ||
        write(1, "\n0 passed, 1 failed\n", 20) < 0)
        _exit(2);
    _exit(1);
}

/* ---- memory ---- */

/* memory between two pages that can't be touched */
struct room {
    uint8_t *begin;
    size_t size;
};
static struct room given_room, out_room;

static struct room room_of(size_t most) {
    size_t size = (most + PAGE - 1) / PAGE * PAGE;
    uint8_t *at =
        mmap(NULL, size + 2 * PAGE, PROT_READ | PROT_WRITE, MAP_PRIVATE | MAP_ANONYMOUS, -1, 0);
    if (at == MAP_FAILED || mprotect(at, PAGE, PROT_NONE) ||
        mprotect(at + PAGE + size, PAGE, PROT_NONE))
        exit(2);
    return (struct room){at + PAGE, size};
}

/* this many bytes of a room: its first ones, or its last ones */
static uint8_t *fitted(struct room room, size_t len) {
    return next() % 2 ? room.begin : room.begin + room.size - len;
}

static uint8_t *copied(const uint8_t *from, size_t len) {
    uint8_t *at = fitted(given_room, len);
    memcpy(at, from, len);
    return at;
}

static int is_untouched(const uint8_t *at, size_t len) {
    return len == 0 || (*at == UNTOUCHED && memcmp(at, at + 1, len - 1) == 0);
}

/* ---- what a writer wrote ---- */

struct file {
    uint8_t *text, *bytes, key[16];
    size_t text_len, len, front; /* front: of header and nonce */
};
static const size_t lengths[] = {
    0,      1,      15,     16,     17,
    1000,   65519,  65520,  65535,  65536, /* one chunk */
    65537,  65552,  65553,  131071, 131072,
    131073, 131088, 196608, 196609, 200000, /* two, three and four */
};
#define FILES_HERE (sizeof lengths / sizeof *lengths)
static struct file files[FILES_HERE];
static const uint8_t pass[] = {'p', 'w'};

static uint8_t noise[48];

/* The library draws these, so that the file key is known, and each file comes again. */
ssize_t getrandom(void *to, size_t count, unsigned flags) {
    (void)flags;
    randomize(noise, sizeof noise);
    memcpy(to, noise, count);
    return (ssize_t)count;
}

static agefile_key by_pass(void) {
    agefile_key key = agefile_passphrase(pass, sizeof pass);
    key.work = 1;
    return key;
}

static struct file sealed(size_t text_len) {
    size_t room = agefile_sealed_len(by_pass(), text_len), stanzas;
    struct file made = {malloc(text_len + 1), malloc(room), {0}, text_len, 0, 0};
    uint32_t work;
    if (made.text == NULL || made.bytes == NULL)
        exit(2);
    randomize(made.text, text_len);
    if (agefile_encrypt(by_pass(), made.text, text_len, made.bytes, room, &made.len) != 0)
        exit(2);
    if (agefile_header(made.bytes, made.len, &made.front, &stanzas, &work) != 0)
        exit(2);
    made.front += NONCE;
    memcpy(made.key, noise, sizeof made.key);
    return made;
}

/* ---- damage ---- */

static uint8_t bytes[MOST + AGEFILE_BLOCK], spare[AGEFILE_BLOCK];
static size_t len;

static size_t least(size_t a, size_t b) { return a < b ? a : b; }

/* Puts bytes in the place of others. */
static void splice(size_t at, size_t gone, const uint8_t *more, size_t count) {
    if (at > len || len + count > MOST)
        return;
    gone = least(gone, len - at);
    memcpy(spare, more, count);
    memmove(bytes + at + count, bytes + at + gone, len - at - gone);
    memcpy(bytes + at, spare, count);
    len = len - gone + count;
}

/* a place in the file: anywhere, in its front, or within 20 bytes of a block's edge */
static size_t place(const struct file *of) {
    size_t edge = of->front + below(4) * AGEFILE_BLOCK + below(41);
    switch (next() % 4) {
    case 0:
        return below(len + 1);
    case 1:
        return least(len, below(of->front + 1));
    case 2:
        return least(len, edge < 20 ? 0 : edge - 20);
    default:
        return len - least(len, below(40));
    }
}

/* the place of one of the file's blocks, and its length (0 if there is none) */
static size_t some_block(const struct file *of, size_t *size) {
    size_t blocks = len > of->front ? (len - of->front + AGEFILE_BLOCK - 1) / AGEFILE_BLOCK : 0;
    size_t at = of->front + (blocks ? below(blocks) : 0) * AGEFILE_BLOCK;
    *size = blocks ? least(AGEFILE_BLOCK, len - at) : 0;
    return at;
}

static void change(const struct file *of) {
    for (size_t left = 1 + below(8); left > 0 && len > 0; left--)
        bytes[least(len - 1, place(of))] ^=
            (uint8_t)(next() % 4 ? (size_t)1 << below(8) : 1 + below(255));
}

static void swap(const struct file *of) {
    static uint8_t first[AGEFILE_BLOCK], second[AGEFILE_BLOCK];
    size_t first_size, second_size, a = some_block(of, &first_size),
                                    b = some_block(of, &second_size);
    if (a >= b)
        return;
    memcpy(first, bytes + a, first_size);
    memcpy(second, bytes + b, second_size);
    splice(b, second_size, first, first_size);
    splice(a, first_size, second, second_size);
}

static void repeat(const struct file *of) {
    size_t size, other, from = some_block(of, &size), to = some_block(of, &other);
    splice(next() % 2 ? to : to + other, 0, bytes + from, size);
}

static void take_out(const struct file *of) {
    size_t size, at = some_block(of, &size);
    splice(at, size, spare, 0);
}

/* a block of another file, in the place of one or before it */
static void graft(const struct file *of) {
    const struct file *from = &files[below(FILES_HERE)];
    size_t size, at = some_block(of, &size),
                 blocks = (from->len - from->front + AGEFILE_BLOCK - 1) / AGEFILE_BLOCK;
    size_t other = from->front + below(blocks) * AGEFILE_BLOCK;
    splice(at, next() % 4 ? size : 0, from->bytes + other, least(AGEFILE_BLOCK, from->len - other));
}

/* bytes that weren't there: of a header, random, zeros or newlines */
static void put_in(size_t at) {
    uint8_t more[80];
    size_t count = 1 + below(sizeof more);
    switch (next() % 4) {
    case 0:
        memcpy(more, files[below(FILES_HERE)].bytes + below(80), sizeof more);
        break;
    case 1:
        randomize(more, sizeof more);
        break;
    case 2:
        memset(more, 0, sizeof more);
        break;
    default:
        memset(more, '\n', sizeof more), count = 1 + count % 3;
    }
    splice(at, 0, more, count);
}

static void damage_once(const struct file *of) {
    uint8_t zeros[40] = {0};
    switch (next() % 10) {
    case 0:
        len = place(of);
        break;
    case 1:
        len = least(len, of->front + below(4) * AGEFILE_BLOCK);
        break;
    case 2:
        change(of);
        break;
    case 3:
        swap(of);
        break;
    case 4:
        repeat(of);
        break;
    case 5:
        take_out(of);
        break;
    case 6:
        graft(of);
        break;
    case 7:
        put_in(below(of->front));
        break;
    case 8:
        put_in(next() % 2 ? len : place(of));
        break;
    default:
        splice(place(of), below(sizeof zeros), zeros, below(sizeof zeros));
    }
}

static void undamaged(const struct file *of) {
    memcpy(bytes, of->bytes, of->len);
    len = of->len;
}

static int is_undamaged(const struct file *of) {
    return len == of->len && memcmp(bytes, of->bytes, len) == 0;
}

/* Damages the file, once or several times, until it isn't what its writer wrote. */
static void damage(const struct file *of) {
    undamaged(of);
    do
        for (size_t left = 1 + (next() % 4 == 0) + (next() % 16 == 0); left > 0; left--)
            damage_once(of);
    while (is_undamaged(of));
}

/* ---- what has to come ---- */

struct wanted {
    int opens, whole;
    size_t text_len;
};

static struct wanted wanted(const struct file *of) {
    struct wanted it = {0, is_undamaged(of), 0};
    it.opens = len >= of->front && memcmp(bytes, of->bytes, of->front - NONCE) == 0;
    if (!it.opens || memcmp(bytes + of->front - NONCE, of->bytes + of->front - NONCE, NONCE) != 0)
        return it;
    for (size_t at = of->front; at < len && at < of->len; at += AGEFILE_BLOCK) {
        size_t size = least(AGEFILE_BLOCK, len - at);
        if (size != least(AGEFILE_BLOCK, of->len - at) ||
            memcmp(bytes + at, of->bytes + at, size) != 0)
            break;
        it.text_len += size - TAG;
    }
    return it;
}

/* ---- readers: the library's, and some that are wrong on purpose ---- */

static agefile_decoder *decoder;
static const struct file *now; /* the file that was damaged */
static uint64_t chunk;         /* the number of the next block of the file */
static int header_is_unchecked;

/* Gives a decoder a block or, as the file ends, what is left of one. */
typedef int reading(const uint8_t *, size_t, int, uint8_t *, size_t, size_t *);

static int reads(const uint8_t *at, size_t size, int is_end, uint8_t *out, size_t room,
                 size_t *written) {
    size_t n;
    int answer = agefile_decode(decoder, at, size, out, room, written);
    if (answer || !is_end)
        return answer;
    n = *written;
    answer = agefile_decode_end(decoder, out + n, room - n, written);
    *written += n;
    return answer;
}

static int ignores_end(const uint8_t *at, size_t size, int is_end, uint8_t *out, size_t room,
                       size_t *written) {
    int answer = reads(at, size, is_end, out, room, written);
    return is_end ? 0 : answer;
}

static int takes_cut(const uint8_t *at, size_t size, int is_end, uint8_t *out, size_t room,
                     size_t *written) {
    int answer = reads(at, size, is_end, out, room, written);
    return is_end && answer == AGEFILE_TRUNCATED ? 0 : answer;
}

static int refuses_end(const uint8_t *at, size_t size, int is_end, uint8_t *out, size_t room,
                       size_t *written) {
    int answer = reads(at, size, is_end, out, room, written);
    return is_end && answer == 0 && chunk > 0 ? AGEFILE_CHUNK_DAMAGED : answer;
}

static int skips_block(const uint8_t *at, size_t size, int is_end, uint8_t *out, size_t room,
                       size_t *written) {
    int last, answer = reads(at, size, is_end, out, room, written);
    if (answer != AGEFILE_CHUNK_DAMAGED || is_end)
        return answer;
    if (agefile_open_at(decoder, chunk, at, size, out, room, written, &last) != 0)
        *written = 0;
    return 0;
}

static int any_order(const uint8_t *at, size_t size, int is_end, uint8_t *out, size_t room,
                     size_t *written) {
    int last, answer = reads(at, size, is_end, out, room, written);
    for (uint64_t other = 0; answer == AGEFILE_CHUNK_DAMAGED && !is_end && other < 5; other++)
        if (agefile_open_at(decoder, other, at, size, out, room, written, &last) == 0)
            answer = 0;
    return answer;
}

static int writes_after(const uint8_t *at, size_t size, int is_end, uint8_t *out, size_t room,
                        size_t *written) {
    int answer = reads(at, size, is_end, out, room, written);
    if (answer == AGEFILE_CHUNK_DAMAGED)
        out[room - 1]++;
    return answer;
}

static int forgets(const uint8_t *at, size_t size, int is_end, uint8_t *out, size_t room,
                   size_t *written) {
    static int turns;
    int answer = reads(at, size, is_end, out, room, written);
    size_t none;
    if (answer == AGEFILE_CHUNK_DAMAGED && ++turns % 3 == 0 &&
        agefile_decoder_begin(decoder, agefile_file_key(now->key)) == 0 &&
        agefile_decode(decoder, now->bytes, now->front, NULL, 0, &none) != 0)
        exit(2);
    return answer;
}

static int reads_past(const uint8_t *at, size_t size, int is_end, uint8_t *out, size_t room,
                      size_t *written) {
    int answer = reads(at, size, is_end, out, room, written);
    return is_end && ((const volatile uint8_t *)at)[size] == 0 && answer == 0 ? 0 : answer;
}

static const struct flaw {
    const char *name;
    reading *read;
    int header_is_unchecked;
} flaws[] = {
    {"ignores-end", ignores_end, 0}, {"takes-cut", takes_cut, 0},
    {"refuses-end", refuses_end, 0}, {"skips-block", skips_block, 0},
    {"any-order", any_order, 0},     {"writes-after", writes_after, 0},
    {"forgets-fault", forgets, 0},   {"reads-past", reads_past, 0},
    {"unchecked-header", reads, 1},
};
static reading *reader = reads;

/* ---- reading ---- */

/* Gives bytes of the file's front, of which no plaintext comes. */
static int given(size_t from, size_t to) {
    const uint8_t *front = header_is_unchecked ? now->bytes : bytes;
    size_t n = 0;
    int answer =
        from < to ? agefile_decode(decoder, copied(front + from, to - from), to - from, NULL, 0, &n)
                  : 0;
    if (n != 0)
        report(AFTER, "the header gives %zu bytes of text", n);
    return answer;
}

/* What comes of a file whose header isn't open after as many bytes as the writer's had. */
static void stays_shut(int answer) {
    size_t n = 0;
    for (size_t at = now->front, size; answer == 0 && at < len; at += size) {
        size = least(60000, len - at);
        answer = agefile_decode(decoder, copied(bytes + at, size), size, NULL, 0, &n);
    }
    if (answer == 0)
        answer = agefile_decode_end(decoder, NULL, 0, &n);
    if (answer == 0 || n != 0 || agefile_payload_at(decoder) != 0)
        report(OPENED, "the header of another file: answer %d", answer);
}

/* Opens the file's header, perhaps in two parts. */
static int opens(struct wanted want) {
    size_t have = header_is_unchecked ? now->front : least(len, now->front),
           part = next() % 4 == 0 ? below(have + 1) : 0;
    int answer =
        agefile_decoder_begin(decoder, next() % 4 ? agefile_file_key(now->key) : by_pass());
    if (answer == 0)
        answer = given(0, part);
    if (answer == 0)
        answer = given(part, have);
    int is_open = answer == 0 && agefile_payload_at(decoder) != 0;
    if (is_open != want.opens)
        report(OPENED, "%zu bytes of a file's front of %zu: answer %d", have, now->front, answer);
    if (is_open && agefile_payload_at(decoder) != now->front)
        report(OPENED, "payload at %llu, not %zu", (unsigned long long)agefile_payload_at(decoder),
               now->front);
    if (!is_open)
        stays_shut(answer);
    return is_open && want.opens;
}

/* one call: what it wrote has to be the text from `got` on, and nothing if it isn't 0 */
static int called(const uint8_t *from, size_t size, int is_end, size_t *got) {
    size_t room = AGEFILE_CHUNK + (next() % 2 ? 0 : below(100)), written = 77;
    uint8_t *out = fitted(out_room, room);
    memset(out, UNTOUCHED, room);
    int answer = reader(copied(from, size), size, is_end, out, room, &written);
    if (answer != 0) {
        if (written != 0 || !is_untouched(out, room))
            report(AFTER, "answer %d, and %zu bytes or more were written", answer, written);
        return answer;
    }
    if (written > room || written > now->text_len - *got ||
        memcmp(out, now->text + *got, written) != 0)
        report(TEXT, "%zu bytes after %zu aren't the text", written, *got);
    else if (!is_untouched(out + written, room - written))
        report(TEXT, "bytes after the text were written");
    *got = written > now->text_len - *got ? now->text_len : *got + written;
    return 0;
}

/* A call without room for its text, which changes nothing, so that what comes after it is as if it
 * weren't. */
static void misuse(void) {
    size_t room = AGEFILE_CHUNK - 1 - below(100), written = 77;
    uint8_t *out = fitted(out_room, room);
    memset(out, UNTOUCHED, room);
    int answer = agefile_decode(decoder, copied(now->bytes, AGEFILE_BLOCK), AGEFILE_BLOCK, out,
                                room, &written);
    if (answer != AGEFILE_NO_ROOM || written != 0 || !is_untouched(out, room))
        report(AFTER, "a call without room: answer %d", answer);
}

/* Calls after a fault, with blocks that would be right: each has to return that fault again. */
static void stays(int fault, size_t got) {
    uint64_t of = agefile_fault_chunk(decoder);
    size_t blocks = (now->len - now->front) / AGEFILE_BLOCK, was = got;
    for (size_t left = 4; left > 0; left--) {
        size_t right = chunk < blocks ? (size_t)chunk : 0, at = now->front + right * AGEFILE_BLOCK;
        int is_end = blocks == 0 || next() % 3 == 0;
        if (is_end)
            at = now->front + blocks * AGEFILE_BLOCK;
        int answer = called(now->bytes + at, is_end ? now->len - at : AGEFILE_BLOCK, is_end, &got);
        if (answer != fault || agefile_fault_chunk(decoder) != of || got != was)
            report(STAYS, "after fault %d of chunk %lld came %d, of %lld", fault, (long long)of,
                   answer, (long long)agefile_fault_chunk(decoder));
    }
}

/* Calls after the end: only another end without bytes may return 0. */
static void ends(size_t got) {
    size_t was = got;
    if (next() % 2 && called(bytes, 0, 1, &got) != 0)
        report(STAYS, "a second end isn't 0");
    size_t size = next() % 2 ? AGEFILE_BLOCK : 1 + below(AGEFILE_BLOCK - 1);
    int answer =
        called(now->bytes, least(size, now->len), size != AGEFILE_BLOCK || size > now->len, &got);
    if (answer != AGEFILE_TRAILING || got != was)
        report(STAYS, "after the end came %d", answer);
    else
        stays(AGEFILE_TRAILING, got);
}

static long headers_open, with_text, with_fault[23];

/* Reads the file, and compares what comes with what has to. */
static void read_file(void) {
    struct wanted want = wanted(now);
    size_t got = 0, at, size;
    int answer;
    chunk = 0;
    if (!opens(want))
        return;
    headers_open++;
    at = now->front;
    do {
        if (next() % 16 == 0 && now->len >= AGEFILE_BLOCK)
            misuse();
        size = least(AGEFILE_BLOCK, len - at);
        answer = called(bytes + at, size, size < AGEFILE_BLOCK, &got);
        at += size;
        chunk += answer == 0 && size == AGEFILE_BLOCK;
    } while (answer == 0 && size == AGEFILE_BLOCK);
    with_text += got > 0;
    with_fault[answer < 23 ? answer : 0]++;
    if (got != want.text_len)
        report(TEXT, "%zu bytes of text came, not %zu", got, want.text_len);
    if ((answer == 0) != want.whole)
        report(WHOLE, "the end returned %d", answer);
    if (answer != 0 &&
        agefile_fault_chunk(decoder) != (answer == AGEFILE_TRAILING ? UINT64_MAX : chunk))
        report(WHOLE, "the fault names another chunk");
    if (answer != 0)
        stays(answer, got);
    else
        ends(got);
}

static const struct flaw *flaw_of(const char *name) {
    for (size_t i = 0; i < sizeof flaws / sizeof *flaws; i++)
        if (strcmp(flaws[i].name, name) == 0)
            return &flaws[i];
    fprintf(stderr, "usage: damage [FILES [SEED [FLAW]]], a FLAW being one of");
    for (size_t i = 0; i < sizeof flaws / sizeof *flaws; i++)
        fprintf(stderr, " %s", flaws[i].name);
    fputc('\n', stderr);
    exit(2);
}

/* Prepares the files and the memory. The files are the same for all seeds, so that the seed of one
 * file is enough to make it again. */
static void prepare(void) {
    struct sigaction action;
    memset(&action, 0, sizeof action);
    action.sa_handler = on_fault;
    if (sigaction(SIGSEGV, &action, NULL) != 0)
        exit(2);
    file_seed = 1;
    for (size_t i = 0; i < FILES_HERE; i++)
        files[i] = sealed(lengths[i]);
    given_room = room_of(MOST + AGEFILE_BLOCK);
    out_room = room_of(AGEFILE_CHUNK + 100);
    if (agefile_decoder_new(&decoder, by_pass()) != 0)
        exit(2);
}

/* Damages and reads this many files, and now and then reads one as it is. */
static void read_files(long count) {
    long whole = 0;
    for (long number = 0; number < count; number++) {
        this_file = file_seed = seed + (uint64_t)number;
        now = &files[below(FILES_HERE)];
        if (next() % 32 == 0) {
            undamaged(now);
            read_file();
            whole++;
        }
        damage(now);
        read_file();
    }
    printf("files: %ld damaged, %ld as they were; headers opened: %ld, with a text: %ld; faults",
           count, whole, headers_open, with_text);
    for (int fault = 17; fault < 23; fault++)
        if (with_fault[fault])
            printf(" %d: %ld", fault, with_fault[fault]);
    putchar('\n');
}

int main(int argc, char **argv) {
    long count = argc > 1 ? atol(argv[1]) : 50000, failed = 0;
    seed = argc > 2 ? strtoull(argv[2], NULL, 10) : (uint64_t)time(NULL);
    if (argc > 3) {
        const struct flaw *flaw = flaw_of(argv[3]);
        reader = flaw->read, header_is_unchecked = flaw->header_is_unchecked;
    }
    printf("seed %llu\n", (unsigned long long)seed);
    prepare();
    read_files(count);
    for (int rule = 0; rule < RULES; rule++) {
        failed += wrong[rule] != 0;
        printf("wrong %ld times: %s\n", wrong[rule], rules[rule]);
    }
    agefile_decoder_free(decoder);
    printf("%ld passed, %ld failed\n", RULES - failed, failed);
    return failed != 0;
}
