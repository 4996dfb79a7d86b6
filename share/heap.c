/*
 * The heap of libbafokun on a processor for which the Rattle kit has none: malloc, realloc and free, as the library calls them.
 * bin/libbafokun puts it into the archive. The kit's compiler, which has no headers, compiles it.
 */
typedef __SIZE_TYPE__ size_t;

void *malloc(size_t size);
void *realloc(void *block, size_t size);
void free(void *block);

/* Whether there was memory, and where: `ok` is a whole word, so that no bit of its register is left open. */
struct tried {
    size_t ok;
    void *block;
};

/* what a refused request points to; nobody reads or writes it */
static char nothing;

static struct tried tried_of(void *block)
{
    struct tried tried = { block != 0, block != 0 ? block : &nothing };
    return tried;
}

/* A block of no bytes has as many as its alignment, which is at most 16, as malloc's. */
struct tried rattle_alloc(size_t size, size_t alignment)
{
    return tried_of(malloc(size != 0 ? size : alignment));
}

struct tried rattle_realloc(void *block, size_t kept, size_t size, size_t alignment)
{
    (void)kept;
    return tried_of(realloc(block, size != 0 ? size : alignment));
}

void rattle_dealloc(void *block)
{
    free(block);
}
