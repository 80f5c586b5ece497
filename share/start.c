/* What stands before `main` in a program that tools/release links with musl, whose name is PROGRAM; no proof covers it.
 *
 * It ends the program with a message and status 126 where the processor is older than x86-64-v2, for which the kit compiles. And it calls
 * the initialisers again, with the words of the command line. The kit's C has one, which keeps them; musl has called it before with none,
 * and what it kept then is overwritten. This is compiled for any x86-64 processor, as musl is, and without header files.
 */
extern long write(int file, const void *bytes, unsigned long count);
extern void _exit(int status) __attribute__((noreturn));
typedef void initialiser(int count, char **words, char **environment);
extern initialiser *const __init_array_start[], *const __init_array_end[];
int __real_main(int count, char **words, char **environment);

/* The word that the processor tells in ECX under a leaf of CPUID, or 0 where it has no such leaf. */
static unsigned told(unsigned leaf) {
    unsigned most, rest[3], word;
    __asm__("cpuid" : "=a"(most), "=b"(rest[0]), "=c"(rest[1]), "=d"(rest[2]) : "0"(leaf & 0x80000000u), "2"(0));
    if (most < leaf)
        return 0;
    __asm__("cpuid" : "=a"(most), "=b"(rest[0]), "=c"(word), "=d"(rest[2]) : "0"(leaf), "2"(0));
    return word;
}

/* What the program's own test of the processor asks of glibc, which musl hasn't: the words of a leaf of CPUID, the third of which is that of
 * ECX. It asks for leaf 1 by the number 0, and for leaf 0x80000001 by 2. */
struct leaf {
    unsigned of_processor[4], active[4];
};

const struct leaf *__x86_get_cpuid_feature_leaf(unsigned number) {
    static struct leaf leaves[2];
    struct leaf *it = &leaves[number == 2];
    it->active[2] = told(number == 2 ? 0x80000001u : 1);
    return it;
}

/* The call by which a program asks for the size of a file, which musl has from 1.2.5 on: number 332 on x86-64. */
extern long syscall(long number, ...);
__attribute__((weak)) int statx(int folder, const char *path, int flags, unsigned wanted, void *into) {
    return (int)syscall(332L, (long)folder, path, (long)flags, (unsigned long)wanted, into);
}

/* What a division of numbers of 128 bits is compiled to, which the kit's linker has of its own: bit by bit, as programs divide few. */
__attribute__((weak)) unsigned __int128 __udivti3(unsigned __int128 number, unsigned __int128 by) {
    unsigned __int128 quotient = 0, rest = 0;
    for (int bit = 127; bit >= 0; bit--) {
        const int carry = rest >> 127 != 0;
        rest = rest << 1 | (number >> bit & 1);
        if (carry || rest >= by) {
            rest -= by;
            quotient |= (unsigned __int128)1 << bit;
        }
    }
    return quotient;
}

/* The name by which it writes that the processor is too old. */
long __write(int file, const void *bytes, unsigned long count) {
    return write(file, bytes, count);
}

/* Whether the processor has SSE3, SSSE3, CMPXCHG16B, SSE4.1, SSE4.2 and POPCNT (leaf 1), and LAHF (leaf 0x80000001). */
static int is_new_enough(void) {
    const unsigned wanted = 1u << 0 | 1u << 9 | 1u << 13 | 1u << 19 | 1u << 20 | 1u << 23;
    return (told(1) & wanted) == wanted && (told(0x80000001u) & 1);
}

int __wrap_main(int count, char **words, char **environment) {
    static const char refusal[] = PROGRAM ": this processor is too old: " PROGRAM " needs x86-64-v2 (SSE4.2, POPCNT and what is before them)\n";
    if (!is_new_enough()) {
        write(2, refusal, sizeof refusal - 1);
        _exit(126);
    }
    for (initialiser *const *each = __init_array_start; each < __init_array_end; each++)
        (*each)(count, words, environment);
    return __real_main(count, words, environment);
}
