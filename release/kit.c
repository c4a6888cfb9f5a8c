/* What the program calls of the kit's C, for a processor for which the kit has no C objects, and
 * for who links the objects of a release where the kit isn't (release/objects): beside
 * bindings/c/heap.c these three functions. Each one's contract is that of the declaration in the
 * kit's crate os (src/c.rt), which is quoted here. Nothing proves them: they are for eyes, and
 * release/static checks that the program asks for these and no others. The file includes no header,
 * so that its object doesn't depend on the machine's. */
typedef __SIZE_TYPE__ size;
typedef __PTRDIFF_TYPE__ answer;

/* glibc's, whose value is errno's place */
int *__errno_location(void);

static size count;
static char **words;

/* glibc hands each constructor what it hands main */
__attribute__((constructor)) static void keep(int argc, char **argv) {
    count = (size)argc;
    words = argv;
}

/* "Puts argument i at the start of buf and answers its length, -1 where there is no such argument,
 * or -2 where it does not fit, and then buf is full." */
answer rattle_arg(size i, unsigned char *buf, size len) {
    size at = 0;
    if (i >= count || words[i] == 0)
        return -1;
    for (; words[i][at] != 0; at++) {
        if (at == len)
            return -2;
        buf[at] = (unsigned char)words[i][at];
    }
    return (answer)at;
}

/* The calling thread's errno. */
int rattle_errno(void) { return *__errno_location(); }

/* Sets it. */
void rattle_set_errno(int error) { *__errno_location() = error; }
