/* Whether the processor can run the library, for core.h. It includes no header, so that its object
 * doesn't depend on the machine's, and is compiled for any processor. */
unsigned int age_c_runs_here(void);

#ifdef __x86_64__
/* What x86-64-v2 has beyond x86-64, as cpuid shows it in ecx: of leaf 1 sse3, ssse3, cmpxchg16b,
 * sse4.1, sse4.2 and popcnt, of leaf 0x80000001 lahf in 64-bit mode. */
enum { LEAF = 1, FEATURES = 1 | 1 << 9 | 1 << 13 | 1 << 19 | 1 << 20 | 1 << 23, LAHF = 1 };
static const unsigned int extended_leaf = 0x80000001;

__attribute__((target("arch=x86-64"))) static unsigned int features(unsigned int leaf) {
    unsigned int a = leaf, b, c = 0, d;
    __asm__("cpuid" : "+a"(a), "=b"(b), "+c"(c), "=d"(d));
    return c;
}

__attribute__((target("arch=x86-64"))) unsigned int age_c_runs_here(void) {
    return (features(LEAF) & FEATURES) == FEATURES && (features(extended_leaf) & LAHF) == LAHF;
}
#else
unsigned int age_c_runs_here(void) { return 1; }
#endif
