/* Where the library takes its memory: from malloc, realloc and free of the C library. Blocks are aligned as malloc aligns them,
 * which is to 16 bytes and enough for all that the library keeps. It names no header, so that the toolchain alone compiles it. */
typedef __SIZE_TYPE__ size_t;

void *malloc(size_t size);
void *realloc(void *at, size_t size);
void free(void *at);

/* Whether there is a block, and where; where there is none, any address. */
struct block {
    unsigned char is_there;
    void *at;
};

struct block rattle_alloc(size_t size, size_t alignment);
struct block rattle_realloc(void *at, size_t kept, size_t size, size_t alignment);
void rattle_dealloc(void *at);

static unsigned char nowhere;

static struct block block_at(void *at) {
    return (struct block){at != 0, at != 0 ? at : &nowhere};
}

struct block rattle_alloc(size_t size, size_t alignment) {
    return block_at(malloc(size ? size : alignment));
}

struct block rattle_realloc(void *at, size_t kept, size_t size, size_t alignment) {
    (void)kept;
    return block_at(realloc(at, size ? size : alignment));
}

void rattle_dealloc(void *at) {
    free(at);
}
