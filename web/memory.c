// What the program's code asks of its host: memory, and the functions that clang calls by name.
typedef unsigned char u8;
typedef unsigned int u32;
typedef unsigned long long u64;
typedef unsigned __int128 u128;
typedef __SIZE_TYPE__ usize;

// A block has 2 to the power of its class bytes, of which the first 16 hold its class and, while it is free, the next free
// block of its class.
enum { HEADER = 16, LEAST = 5, GREATEST = 31, PAGE = 65536, PAGES = 65536 };

struct block {
    usize class;
    struct block *next;
};

extern u8 __heap_base;
static usize end_of_blocks;
static struct block *free_blocks[GREATEST + 2];

static usize class_for(usize size) {
    usize class = LEAST;
    while (((usize)1 << class) < size + HEADER) class++;
    return class;
}

// Whether the memory reaches so far, once it has grown. A page less than 4 GiB is the most: addresses have 32 bits where they
// are used. A host that refuses answers the greatest number of 32 or of 64 bits.
static int reaches(usize end) {
    usize pages = __builtin_wasm_memory_size(0), wanted = (end + PAGE - 1) / PAGE;
    if (wanted <= pages) return 1;
    if (wanted >= PAGES) return 0;
    usize more = wanted - pages;
    if (more < 64 && pages + 64 < PAGES) more = 64;
    return (u32)__builtin_wasm_memory_grow(0, more) != 0xffffffffu;
}

static struct block *new_block(usize class) {
    if (!end_of_blocks) end_of_blocks = ((usize)&__heap_base + 15) & ~(usize)15;
    usize at = end_of_blocks, end = at + ((usize)1 << class);
    if (!reaches(end)) return 0;
    end_of_blocks = end;
    struct block *block = (struct block *)at;
    block->class = class;
    return block;
}

void *malloc(usize size) {
    if (size > ((usize)1 << GREATEST)) return 0;
    usize class = class_for(size);
    struct block *block = free_blocks[class];
    if (block) free_blocks[class] = block->next;
    else block = new_block(class);
    return block ? (u8 *)block + HEADER : 0;
}

void free(void *at) {
    if (!at) return;
    struct block *block = (struct block *)((u8 *)at - HEADER);
    block->next = free_blocks[block->class];
    free_blocks[block->class] = block;
}

void *realloc(void *at, usize size) {
    if (!at) return malloc(size);
    usize fits = ((usize)1 << ((struct block *)((u8 *)at - HEADER))->class) - HEADER;
    if (size <= fits) return at;
    void *to = malloc(size);
    if (!to) return 0;
    __builtin_memcpy(to, at, fits);
    free(at);
    return to;
}

void *memcpy(void *to, const void *from, usize size) {
    __builtin_memcpy(to, from, size);
    return to;
}

void *memmove(void *to, const void *from, usize size) {
    __builtin_memmove(to, from, size);
    return to;
}

void *memset(void *to, int byte, usize size) {
    __builtin_memset(to, byte, size);
    return to;
}

int memcmp(const void *one, const void *other, usize size) {
    const u8 *a = one, *b = other;
    for (; size; size--, a++, b++)
        if (*a != *b) return *a - *b;
    return 0;
}

int bcmp(const void *one, const void *other, usize size) {
    return memcmp(one, other, size);
}

// The product of two numbers of 128 bits, by products of 32 bits.
u128 __multi3(u128 a, u128 b) {
    u64 x = (u64)a, y = (u64)b;
    u64 x0 = (u32)x, x1 = x >> 32, y0 = (u32)y, y1 = y >> 32;
    u64 low = x0 * y0, middle = x1 * y0 + (low >> 32), more = x0 * y1 + (u32)middle;
    u64 high = x1 * y1 + (middle >> 32) + (more >> 32) + x * (u64)(b >> 64) + (u64)(a >> 64) * y;
    return (u128)high << 64 | (more << 32 | (u32)low);
}
