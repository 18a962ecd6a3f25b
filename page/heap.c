// The heap of the page's module: what the kit's libc asks of C (rattle_alloc, rattle_realloc, rattle_dealloc), and the one
// instruction of x86-64 that the module names. No proof covers this file.
//
// Sizes come in classes, four to each doubling. A block is preceded by 16 bytes, which hold its class; it begins at a multiple of
// 16. A block that is given back is given again to whoever asks for its class next. The page grows the memory too, for what it
// hands over, so new pages need not follow the last ones of this file.
typedef unsigned long long u64;
typedef unsigned char u8;

// What the kit's libc is answered: whether there is memory (a bool in a word), and where.
typedef struct {
    u64 is_there;
    u8 *at;
} Answer;

enum { PAGE = 16, HEAD = 16, LEAST_PAGES = 64, CLASSES = 256 };

extern u8 __heap_base, __heap_end;
static u64 free_from, free_to;
static u8 nowhere, *given_back[CLASSES];

static unsigned class_of(u64 size) {
    if (size <= 64) return size ? (size - 1) / 16 : 0;
    unsigned log = 63 - __builtin_clzll(size - 1);
    return 4 + (log - 6) * 4 + ((size - 1) >> (log - 2) & 3);
}

static u64 size_of(unsigned class) {
    return class < 4 ? (class + 1) * 16 : (u64)((class & 3) + 5) << (class / 4 + 3);
}

// Grows the memory by pages, and answers the first of them; -1 in the low 32 bits where it is refused.
static u64 grow(u64 pages) {
    return __builtin_wasm_memory_grow(0, pages);
}

// Memory that no block had yet, or null.
static u8 *fresh(u64 size) {
    if (!free_from) {
        free_from = ((u64)&__heap_base + 15) & ~15ULL;
        free_to = (u64)&__heap_end;
    }
    if (size > free_to - free_from) {
        u64 least = (size + (1 << PAGE) - 1) >> PAGE, pages = least < LEAST_PAGES ? LEAST_PAGES : least, page = grow(pages);
        if ((unsigned)page == -1U) page = grow(pages = least);
        if ((unsigned)page == -1U) return 0;
        if (page << PAGE != free_to) free_from = page << PAGE;
        free_to = (page + pages) << PAGE;
    }
    u8 *at = (u8 *)free_from;
    free_from += size;
    return at;
}

// A block of at least this size, or null.
static u8 *block(u64 size) {
    if (size > 1ULL << 32) return 0;
    unsigned class = class_of(size);
    u8 *at = given_back[class];
    if (at) {
        given_back[class] = *(u8 **)at;
        return at;
    }
    at = fresh(HEAD + size_of(class));
    if (!at) return 0;
    *(u64 *)at = class;
    return at + HEAD;
}

static Answer answer(u8 *at) {
    return (Answer){at != 0, at ? at : &nowhere};
}

Answer rattle_alloc(u64 size, u64 align) {
    return answer(block(size ? size : align));
}

void rattle_dealloc(u8 *at) {
    u64 class = *(u64 *)(at - HEAD);
    *(u8 **)at = given_back[class];
    given_back[class] = at;
}

Answer rattle_realloc(u8 *at, u64 kept, u64 size, u64 align) {
    u64 wanted = size ? size : align, had = size_of(*(u64 *)(at - HEAD));
    if (wanted <= had && had <= 2 * wanted + 64) return answer(at);
    u8 *to = block(wanted);
    if (to) {
        __builtin_memcpy(to, at, had < wanted ? had : wanted);
        rattle_dealloc(at);
    }
    return answer(to);
}

// Each byte of the answer is the byte of `of` at the low four bits of the byte of `by` there, or 0 where that is negative.
typedef signed char Bytes __attribute__((vector_size(16)));
Bytes page_pshufb(Bytes of, Bytes by) {
    Bytes all;
    for (int i = 0; i < 16; i++) all[i] = by[i] < 0 ? 0 : of[by[i] & 15];
    return all;
}
