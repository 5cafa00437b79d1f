/* Where zsched begins, and what it asks of the system that glibc 2.14 lacks. The Rattle kit links a program with the files of
 * a newer glibc; bin/dist links this one in their place. It is not proved: it is C, as texts.c is. (It includes nothing, so
 * that the kit's compiler builds it.) */
typedef unsigned long size;
typedef void constructor(int count, char **words, char **environment);

enum {
    INTERRUPTED = 4,
    NO_SUCH_CALL = 38
};

int main(int count, char **words);
int __libc_start_main(int (*program)(int, char **), int count, char **words, constructor *begin, void (*end)(void),
                      void (*unload)(void), void *stack);
int *__errno_location(void);
long syscall(long number, ...);
int open(const char *name, int flags, ...);
long read(int file, void *to, size bytes);
int close(int file);

size rattle_arg_count(void);
long rattle_arg(size at, char *to, size room);
int rattle_errno(void);
void rattle_set_errno(int error);
int getentropy(void *to, size bytes);

/* The first instructions: they hand the stack, and what is to be called at the end, to `begin`. */
#if defined(__x86_64__)
enum {
    GETRANDOM = 318
};
__asm__(".globl _start\n.type _start,@function\n_start:\n"
        "xorl %ebp, %ebp\nmovq %rsp, %rdi\nmovq %rdx, %rsi\nandq $-16, %rsp\ncall begin\nhlt\n");
#elif defined(__aarch64__)
enum {
    GETRANDOM = 278
};
__asm__(".globl _start\n.type _start,%function\n_start:\n"
        "mov x29, #0\nmov x30, #0\nmov x1, x0\nmov x0, sp\nbl begin\nbrk #1\n");
#endif

extern constructor *const __init_array_start[] __attribute__((visibility("hidden")));
extern constructor *const __init_array_end[] __attribute__((visibility("hidden")));

static size argument_count;
static char **arguments;

/* (glibc calls the constructors itself only from 2.34 on) */
static void construct(int count, char **words, char **environment) {
    for (constructor *const *each = __init_array_start; each != __init_array_end; each++)
        (*each)(count, words, environment);
}

__attribute__((used, visibility("hidden"))) void begin(size *stack, void (*unload)(void));
void begin(size *stack, void (*unload)(void)) {
    argument_count = *stack;
    arguments = (char **)(stack + 1);
    __libc_start_main(main, (int)argument_count, arguments, construct, 0, unload, stack);
}

size rattle_arg_count(void) {
    return argument_count;
}

/* The length of an argument that is put into `to`, -1 if there is none, or -2 if there is no room. */
long rattle_arg(size at, char *to, size room) {
    size length = 0;
    if (at >= argument_count || arguments[at] == 0) return -1;
    for (const char *argument = arguments[at]; argument[length] != 0; length++) {
        if (length == room) return -2;
        to[length] = argument[length];
    }
    return (long)length;
}

int rattle_errno(void) {
    return *__errno_location();
}

void rattle_set_errno(int error) {
    *__errno_location() = error;
}

/* Random bytes of the system, as glibc gives them from 2.25 on; from the file where Linux has no call for them. */
int getentropy(void *to, size bytes) {
    char *at = to, *end = at + bytes;
    int file = -1;
    while (at != end) {
        long got = file >= 0 ? read(file, at, (size)(end - at)) : syscall(GETRANDOM, at, (size)(end - at), 0);
        if (got > 0)
            at += got;
        else if (got < 0 && rattle_errno() == NO_SUCH_CALL && file < 0 && (file = open("/dev/urandom", 0)) >= 0)
            continue;
        else if (got == 0 || rattle_errno() != INTERRUPTED)
            break;
    }
    if (file >= 0) close(file);
    return at == end ? 0 : -1;
}

#if defined(__x86_64__)
struct leaf {
    unsigned is[4], works[4];
};
const struct leaf *__x86_get_cpuid_feature_leaf(unsigned leaf);

/* What the processor has of each leaf, as glibc tells it from 2.33 on: the program begins by asking. The instructions that
 * it asks for need nothing of the system, so each that is there works. */
const struct leaf *__x86_get_cpuid_feature_leaf(unsigned leaf) {
    static const unsigned numbers[] = {1, 7, 0x80000001};
    static struct leaf told[sizeof numbers / sizeof *numbers + 1];
    struct leaf *one = &told[sizeof numbers / sizeof *numbers];
    if (leaf < sizeof numbers / sizeof *numbers) {
        unsigned most, unused[3];
        one = &told[leaf];
        __asm__("cpuid"
                : "=a"(most), "=b"(unused[0]), "=c"(unused[1]), "=d"(unused[2])
                : "a"(numbers[leaf] & 0x80000000));
        if (numbers[leaf] <= most)
            __asm__("cpuid"
                    : "=a"(one->is[0]), "=b"(one->is[1]), "=c"(one->is[2]), "=d"(one->is[3])
                    : "a"(numbers[leaf]), "c"(0));
        for (int at = 0; at < 4; at++)
            one->works[at] = one->is[at];
    }
    return one;
}
#endif
