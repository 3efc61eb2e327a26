// The memory of the module: the three functions that the compiler's module calls, and four for the page.
//
// A small block holds 2^n bytes, 16 at least, after 16 that hold its class, n; free ones stand in a list for each
// class. A large one has as many bytes as are wanted, after 16 that hold how many it takes with these; free ones stand
// in one list by their places, those that touch being one, and what is freed at the top is no block any more.
//
// A request that would pass the most (what the page allows, and MOST_PAGES, by web/build) is refused here, and so is
// one that the browser refuses: in the lowered module memory.grow answers 2^32 - 1 and never -1, so the low 32 bits are
// compared.

typedef unsigned long u64;
typedef unsigned int u32;

enum { FEWEST_PAGES = 256, PAGE_BITS = 16, HEAD = 16, LEAST_CLASS = 4, MOST_CLASS = 17, CLASSES = MOST_CLASS + 1 };

// More than so many bytes are a large block.
static const u64 LARGE = 1ul << MOST_CLASS;

extern unsigned char __heap_base;

struct block {
    struct block *next;
};

// A free large block, from where its head was.
struct piece {
    u64 size;
    struct piece *next;
};

struct tried {
    u64 is_there;
    u64 place;
};

static struct block *lists[CLASSES];
static struct piece *pieces;
static u64 top, end, most_pages, refusals;
static u64 nothing[2];

static u64 pages_of(u64 bytes) { return (bytes + (1ul << PAGE_BITS) - 1) >> PAGE_BITS; }

static u64 rounded(u64 bytes) { return (bytes + HEAD - 1) & ~(u64)(HEAD - 1); }

// For the page: forgets all blocks, and lets them take so much memory from here on, with all that the module has
// beside.
void trac_web_begin(u64 bytes) {
    for (u64 class = 0; class < CLASSES; class++) lists[class] = 0;
    pieces = 0;
    refusals = 0;
    most_pages = bytes < (u64)MOST_PAGES << PAGE_BITS ? bytes >> PAGE_BITS : MOST_PAGES;
    u64 pages = __builtin_wasm_memory_size(0);
    top = rounded((u64)&__heap_base);
    end = (pages < most_pages ? pages : most_pages) << PAGE_BITS;
    if (end < top) end = top;
}

// For the page: how often memory was refused since then.
u64 trac_web_refusals(void) { return refusals; }

// Grows the memory by so many pages, if it may.
static int grow(u64 pages) {
    u64 now = __builtin_wasm_memory_size(0);
    if (pages > most_pages || now + pages > most_pages) return 0;
    if ((u32)__builtin_wasm_memory_grow(0, pages) == (u32)-1) return 0;
    end = (now + pages) << PAGE_BITS;
    return 1;
}

// Makes room for so many bytes more at the top; if it can, for some more than that.
static int has_room(u64 size) {
    if (!top) trac_web_begin((u64)MOST_PAGES << PAGE_BITS);
    if (size <= end - top) return 1;
    u64 pages = pages_of(size - (end - top));
    return (pages < FEWEST_PAGES && grow(FEWEST_PAGES)) || grow(pages);
}

// So many bytes of the first free piece that has as many, or 0.
static u64 cut(u64 size) {
    for (struct piece **link = &pieces; *link; link = &(*link)->next) {
        struct piece *piece = *link;
        if (piece->size < size) continue;
        struct piece *next = piece->next;
        if (piece->size > size) {
            struct piece *rest = (struct piece *)((u64)piece + size);
            *rest = (struct piece){piece->size - size, next};
            next = rest;
        }
        *link = next;
        return (u64)piece;
    }
    return 0;
}

// So many bytes at the top, or 0.
static u64 raise(u64 size) {
    if (!has_room(size)) return 0;
    u64 from = top;
    top += size;
    return from;
}

// Frees so many bytes from a place on.
static void free_piece(u64 from, u64 size) {
    struct piece **link = &pieces;
    while (*link && (u64)*link + (*link)->size < from) link = &(*link)->next;
    struct piece *piece = *link;
    if (piece && (u64)piece + piece->size == from) piece->size += size;
    else {
        *link = (struct piece *)from;
        **link = (struct piece){size, piece};
        piece = *link;
    }
    struct piece *next = piece->next;
    if (next && (u64)piece + piece->size == (u64)next) *piece = (struct piece){piece->size + next->size, next->next};
    if ((u64)piece + piece->size == top) {
        top = (u64)piece;
        *link = 0;
    }
}

// The class of the smallest block that holds so many bytes.
static u64 class_of(u64 n) { return n <= 1ul << LEAST_CLASS ? LEAST_CLASS : 64 - __builtin_clzl(n - 1); }

static u64 take_small(u64 n) {
    u64 class = class_of(n);
    struct block *block = lists[class];
    if (block) {
        lists[class] = block->next;
        return (u64)block;
    }
    u64 size = (1ul << class) + HEAD, from = raise(size);
    if (!from) from = cut(size);
    if (!from) return 0;
    *(u64 *)from = class;
    return from + HEAD;
}

static u64 take_large(u64 n) {
    u64 size = rounded(n) + HEAD, from = cut(size);
    if (!from) from = raise(size);
    if (!from) return 0;
    *(u64 *)from = size;
    return from + HEAD;
}

static u64 take(u64 n) {
    u64 place = n > (u64)MOST_PAGES << PAGE_BITS ? 0 : n > LARGE ? take_large(n) : take_small(n);
    if (!place) refusals++;
    return place;
}

static void give(u64 place) {
    if (!place) return;
    u64 kind = *(u64 *)(place - HEAD);
    if (kind >= CLASSES) {
        free_piece(place - HEAD, kind);
        return;
    }
    struct block *block = (struct block *)place;
    block->next = lists[kind];
    lists[kind] = block;
}

// Whether a block holds so many bytes where it stands: a large one becomes as small as that, or larger at the top.
static int holds(u64 place, u64 n) {
    u64 from = place - HEAD, kind = *(u64 *)from;
    if (kind < CLASSES) return n <= 1ul << kind;
    if (n > (u64)MOST_PAGES << PAGE_BITS) return 0;
    u64 size = rounded(n) + HEAD;
    if (size + LARGE <= kind) {
        *(u64 *)from = size;
        free_piece(from + size, kind - size);
    } else if (size > kind) {
        if (from + kind != top || !has_room(size - kind)) return 0;
        *(u64 *)from = size;
        top += size - kind;
    }
    return 1;
}

static struct tried tried(u64 place) {
    return place ? (struct tried){1, place} : (struct tried){0, (u64)nothing};
}

// A block of so many bytes; of none, as many as it is to be aligned by. No type is aligned by more than 16.
struct tried rattle_alloc(u64 size, u64 alignment) { return tried(take(size ? size : alignment)); }

struct tried rattle_realloc(u64 old, u64 old_size, u64 size, u64 alignment) {
    u64 wanted = size ? size : alignment;
    if (holds(old, wanted)) return (struct tried){1, old};
    u64 place = take(wanted);
    if (!place) return tried(0);
    __builtin_memcpy((void *)place, (void *)old, old_size);
    give(old);
    return (struct tried){1, place};
}

void rattle_dealloc(u64 place) { give(place); }

// For the page: a block of so many bytes, or 0 if there is no memory for it; and back with it.
u64 trac_web_allocate(u64 size) { return take(size ? size : HEAD); }

void trac_web_release(u64 place) { give(place); }

// What Debian's 128-bit arithmetic wants, which was compiled with guards of the stack.
u64 __stack_chk_guard = 0x9e3779b97f4a7c15ul;

void __stack_chk_fail(void) { __builtin_trap(); }
