// Loaded before the C library, it refuses one growth that the program asks for: the one whose number stands in
// REFUSE_AT. It then writes one byte to descriptor 9. What the C library asks for itself is not counted. At each start of
// a thread it writes to descriptor 8 how many growths the program has asked for so far.
//
// It declares what it uses of the C library itself, since the kit has a compiler and no headers.

typedef unsigned long size_t;
typedef unsigned long address;

// A segment of a program, and a loaded object, as the loader of a 64-bit Linux describes them.
struct segment {
    unsigned int type, flags;
    unsigned long offset, virtual_address, physical_address, file_size, memory_size, alignment;
};
struct object {
    address base;
    const char *name;
    const struct segment *segments;
    unsigned short count;
};

enum {
    LOADED = 1
};
#define NEXT ((void *)-1L)

void *dlsym(void *handle, const char *name);
int dl_iterate_phdr(int (*each)(struct object *, size_t, void *), void *data);
size_t malloc_usable_size(void *block);
char *getenv(const char *name);
long atol(const char *text);
long write(int descriptor, const void *bytes, size_t count);
int dprintf(int descriptor, const char *form, ...);

static address program_start, program_end;
static long asked, refuse_at = -1;

static int first_object(struct object *program, size_t size, void *data) {
    (void)size, (void)data;
    for (int i = 0; i < program->count; i++) {
        const struct segment *part = &program->segments[i];
        address start = program->base + part->virtual_address;
        if (part->type != LOADED) continue;
        if (!program_start || start < program_start) program_start = start;
        if (start + part->memory_size > program_end) program_end = start + part->memory_size;
    }
    return 1;
}

static int is_refused(void *from) {
    if (refuse_at < 0) {
        const char *at = getenv("REFUSE_AT");
        refuse_at = at ? atol(at) : 0;
        dl_iterate_phdr(first_object, 0);
    }
    if ((address)from < program_start || (address)from >= program_end) return 0;
    if (__atomic_add_fetch(&asked, 1, __ATOMIC_SEQ_CST) != refuse_at) return 0;
    write(9, "x", 1);
    return 1;
}

void *malloc(size_t size) {
    static void *(*real)(size_t);
    if (!real) real = (void *(*)(size_t))dlsym(NEXT, "malloc");
    return is_refused(__builtin_return_address(0)) ? 0 : real(size);
}

void *realloc(void *block, size_t size) {
    static void *(*real)(void *, size_t);
    if (!real) real = (void *(*)(void *, size_t))dlsym(NEXT, "realloc");
    // A block that has the room already does not grow.
    if (block && malloc_usable_size(block) >= size) return real(block, size);
    return is_refused(__builtin_return_address(0)) ? 0 : real(block, size);
}

int pthread_create(void *thread, const void *how, void *(*entry)(void *), void *data) {
    static int (*real)(void *, const void *, void *(*)(void *), void *);
    if (!real) real = (int (*)(void *, const void *, void *(*)(void *), void *))dlsym(NEXT, "pthread_create");
    dprintf(8, "%ld\n", __atomic_load_n(&asked, __ATOMIC_SEQ_CST));
    return real(thread, how, entry, data);
}
