/* The heap of the module, in the place of the toolchain's own over malloc: rattle_alloc,
   rattle_realloc and rattle_dealloc, and the same for the page. No proof covers it. A block has a
   payload of 2^k bytes after a header of 16; a freed block goes to the list of its k. If the
   browser refuses memory, an allocation fails, as the proofs allow. */
typedef unsigned long long u64;
typedef struct { u64 ok; void *at; } Tried;
typedef struct block { u64 k; struct block *next; } block;

#define PAGE 65536ULL
extern unsigned char __heap_base;
static block *lists[48];
static u64 top, end;
static char nothing[16] __attribute__((aligned(16)));

static block *fresh(u64 k) {
    u64 size = (1ULL << k) + 16;
    if (!top) {
        top = ((u64)&__heap_base + 15) & ~15ULL;
        end = __builtin_wasm_memory_size(0) * PAGE;
    }
    if (end - top < size) {
        u64 pages = (size - (end - top) + PAGE - 1) / PAGE;
        if (__builtin_wasm_memory_grow(0, pages) == (__SIZE_TYPE__)-1) return 0;
        end += pages * PAGE;
    }
    block *it = (block *)top;
    top += size;
    it->k = k;
    return it;
}

/* A block for so many bytes, or null: it is the page's own way to memory, too. */
__attribute__((export_name("page_alloc"))) void *page_alloc(u64 size) {
    u64 k = 4;
    if (size >> 40) return 0;
    while ((1ULL << k) < size) k++;
    block *it = lists[k];
    if (it) lists[k] = it->next;
    else it = fresh(k);
    return it ? (void *)(it + 1) : 0;
}

__attribute__((export_name("page_free"))) void rattle_dealloc(void *at) {
    block *it = (block *)at - 1;
    it->next = lists[it->k];
    lists[it->k] = it;
}

static Tried tried(void *at) {
    Tried it = { at != 0, at ? at : nothing };
    return it;
}

Tried rattle_alloc(u64 size, u64 align) { return tried(page_alloc(size ? size : align)); }

Tried rattle_realloc(void *at, u64 kept, u64 size, u64 align) {
    if (!size) size = align;
    if (size <= 1ULL << ((block *)at - 1)->k) return tried(at);
    void *moved = page_alloc(size);
    if (moved) {
        __builtin_memcpy(moved, at, kept);
        rattle_dealloc(at);
    }
    return tried(moved);
}

/* The product of numbers of 128 bits, which clang calls on WebAssembly. */
__int128 __multi3(__int128 a, __int128 b) {
    u64 al = (u64)a, ah = (u64)(a >> 64), bl = (u64)b, bh = (u64)(b >> 64);
    u64 a0 = (unsigned)al, a1 = al >> 32, b0 = (unsigned)bl, b1 = bl >> 32;
    u64 p00 = a0 * b0, p01 = a0 * b1, p10 = a1 * b0, p11 = a1 * b1;
    u64 mid = (p00 >> 32) + (unsigned)p01 + (unsigned)p10;
    u64 high = p11 + (p01 >> 32) + (p10 >> 32) + (mid >> 32) + al * bh + ah * bl;
    return (__int128)(((unsigned __int128)high << 64) | (mid << 32) | (unsigned)p00);
}
