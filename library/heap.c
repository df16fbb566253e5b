/* The heap of audit.wasm: blocks of a power of two above the stack, each used again for one of its size. No proof covers it. The page's
 * script takes the rooms for a file and for what is printed from it, too. */

typedef unsigned long u64;

#define PAGE 65536UL
#define LEAST 5           /* a block of 32 bytes: its head, and what it is aligned to */
#define MOST 40

typedef struct Block {
    union {
        u64 power;          /* while it is in use */
        struct Block *next; /* while it isn't */
    } head;
    u64 fill;
} Block;

typedef struct {
    u64 ok;
    Block *at;
} Tried;

extern unsigned char __heap_base;
static u64 top;
static Block *given[MOST];

/* (a grown memory is seen by its size: a refusal is another number once the module is lowered to 32 bits) */
static u64 bytes(void)
{
    return __builtin_wasm_memory_size(0) * PAGE;
}

__attribute__((export_name("mbdc_take"))) void *mbdc_take(u64 size)
{
    u64 power = LEAST;
    while (power < MOST && (1UL << power) - sizeof(Block) < size)
        power++;
    if (power == MOST)
        return 0;
    Block *block = given[power];
    if (block) {
        given[power] = block->head.next;
    } else {
        if (!top)
            top = ((u64)&__heap_base + sizeof(Block) - 1) / sizeof(Block) * sizeof(Block);
        u64 end = top + (1UL << power), present = bytes();
        if (end > present)
            __builtin_wasm_memory_grow(0, (end - present + PAGE - 1) / PAGE);
        if (end > bytes())
            return 0;
        block = (Block *)top;
        top = end;
    }
    block->head.power = power;
    return block + 1;
}

__attribute__((export_name("mbdc_give"))) void mbdc_give(void *at)
{
    Block *block = (Block *)at - 1;
    u64 power = block->head.power;
    block->head.next = given[power];
    given[power] = block;
}

Tried rattle_alloc(u64 size, u64 align)
{
    (void)align; /* at most 16 */
    void *at = mbdc_take(size);
    return (Tried){at != 0, at};
}

Tried rattle_realloc(void *from, u64 kept, u64 size, u64 align)
{
    (void)align;
    void *at = mbdc_take(size);
    if (at) {
        __builtin_memcpy(at, from, kept < size ? kept : size);
        mbdc_give(from);
    }
    return (Tried){at != 0, at};
}

void rattle_dealloc(void *at)
{
    mbdc_give(at);
}
