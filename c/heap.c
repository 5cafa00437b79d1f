/* The heap of the engine over malloc, for the processors of which the Rattle kit has no C library: what the kit's own file
 * does on x86-64. It is not proved: it is C, as texts.c is. (It includes nothing, so that the kit's compiler builds it.)
 *
 * A block of no bytes has as many as its alignment, so that each block has an address of its own. Where there is no memory
 * `ok` is false, and `place` an address that nothing reads. malloc aligns for every alignment that the engine asks for. */
typedef unsigned long size;
typedef struct {
    _Bool ok;
    void *place;
} tried;

void *malloc(size bytes);
void *realloc(void *block, size bytes);
void free(void *block);

tried rattle_alloc(size bytes, size alignment);
tried rattle_realloc(void *block, size kept, size bytes, size alignment);
void rattle_dealloc(void *block);

static char nowhere[16];

static tried tried_for(void *block) {
    return (tried){block != 0, block ? block : nowhere};
}

tried rattle_alloc(size bytes, size alignment) {
    return tried_for(malloc(bytes ? bytes : alignment));
}

tried rattle_realloc(void *block, size kept, size bytes, size alignment) {
    (void)kept;
    return tried_for(realloc(block, bytes ? bytes : alignment));
}

void rattle_dealloc(void *block) {
    free(block);
}
