/* The heap that the library calls: malloc's. libagefile.a holds this file; a program that defines
 * the three functions itself gets its own instead. A size of 0 takes `align` bytes, so that each
 * allocation has an address of its own; no alignment is above malloc's. It includes no header,
 * so that its object doesn't depend on the machine's. */
typedef __SIZE_TYPE__ size;

void *malloc(size);
void *realloc(void *, size);
void free(void *);

/* whether there was memory, and where: a pair in two registers */
struct tried {
    size ok;
    void *at;
};

static const char nowhere;

static struct tried tried(void *at) {
    struct tried it = {at != 0, at != 0 ? at : (void *)&nowhere};
    return it;
}

struct tried rattle_alloc(size len, size align) {
    return tried(malloc(len ? len : align));
}

struct tried rattle_realloc(void *at, size kept, size len, size align) {
    (void)kept;
    return tried(realloc(at, len ? len : align));
}

void rattle_dealloc(void *at) { free(at); }
