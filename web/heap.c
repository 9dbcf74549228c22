// The heap of the module: what the crate libc asks of a host, over the memory of WebAssembly. Nothing proves it. A call that finds
// no memory says so, and the device then ends with the status for that.
//
// Sizes fall into classes, four to each power of two. A block that is given back waits in the list of its class; it is never
// joined with another, since an instance serves one run alone.
typedef unsigned long long Size;
typedef unsigned char Byte;

#define PAGE 65536ULL
#define LEAST_GROWTH (256 * PAGE)
#define LARGEST (1ULL << 40)
#define CLASSES 256
#define ALIGNMENT 16ULL
#define EXPORT(name) __attribute__((export_name(name)))

// What the crate's functions give: whether there is memory, and where. The first is a whole word, so that it can be read as a
// byte and as a word.
struct Tried {
    Size is_made;
    void *at;
};

// In front of each block, as long as the alignment.
struct Head {
    Size class;
    Size unused;
};

extern Byte __heap_base; // the linker's: where the module's own data end
static Byte nothing[ALIGNMENT] __attribute__((aligned(16))); // a block without bytes
static Size top, end;        // what lies between them was never given out
static void *waiting[CLASSES]; // the first block of each list; a waiting block begins with the next one's place

static Size rounded_up(Size size, Size to) {
    return (size + to - 1) / to * to;
}

// Class 0 has blocks of 16 bytes; the four classes behind a power of two rise by a quarter of it.
static Size class_of(Size size) {
    if (size <= 16) return 0;
    Size power = 63 - (Size)__builtin_clzll(size - 1); // 2^power < size <= 2^(power + 1)
    Size quarter = 1ULL << (power - 2);
    return (power - 4) * 4 + (size - (1ULL << power) + quarter - 1) / quarter;
}

static Size size_of(Size class) {
    if (class == 0) return 16;
    Size power = (class - 1) / 4 + 4;
    return (1ULL << power) + ((class - 1) % 4 + 1) * (1ULL << (power - 2));
}

static struct Head *head_of(void *block) {
    return (struct Head *)block - 1;
}

static _Bool grow(Size bytes) {
    Size pages = rounded_up(bytes, PAGE) / PAGE;
    if (__builtin_wasm_memory_grow(0, pages) == -1ULL) return 0;
    end += pages * PAGE;
    return 1;
}

// Makes room behind the top. Growing by much at once is only to save calls.
static _Bool has_room(Size bytes) {
    if (top == 0) {
        top = rounded_up((Size)&__heap_base, ALIGNMENT);
        end = __builtin_wasm_memory_size(0) * PAGE;
    }
    if (end - top >= bytes) return 1;
    Size missing = bytes - (end - top);
    return (missing < LEAST_GROWTH && grow(LEAST_GROWTH)) || grow(missing);
}

static void *take(Size size) {
    if (size > LARGEST) return 0;
    Size class = class_of(size);
    void *block = waiting[class];
    if (block) {
        waiting[class] = *(void **)block;
        return block;
    }
    Size bytes = rounded_up(size_of(class), ALIGNMENT) + sizeof(struct Head);
    if (!has_room(bytes)) return 0;
    block = (void *)(top + sizeof(struct Head));
    head_of(block)->class = class;
    top += bytes;
    return block;
}

static void give(void *block) {
    if (!block || block == nothing) return;
    Size class = head_of(block)->class;
    *(void **)block = waiting[class];
    waiting[class] = block;
}

struct Tried rattle_alloc(Size size, Size alignment) {
    if (alignment > ALIGNMENT) return (struct Tried){0, 0};
    void *block = size == 0 ? nothing : take(size);
    return (struct Tried){block != 0, block};
}

struct Tried rattle_realloc(void *block, Size kept, Size size, Size alignment) {
    (void)kept;
    if (!block || block == nothing) return rattle_alloc(size, alignment);
    if (size == 0) {
        give(block);
        return (struct Tried){1, nothing};
    }
    Size class = head_of(block)->class;
    if (size <= LARGEST && class_of(size) == class) return (struct Tried){1, block};
    struct Tried made = rattle_alloc(size, alignment);
    if (!made.is_made) return made;
    Size had = size_of(class);
    __builtin_memcpy(made.at, block, had < size ? had : size);
    give(block);
    return made;
}

void rattle_dealloc(void *block) {
    give(block);
}

// The page's own: room for a script, a report, and what a call tells.

EXPORT("page_take") void *page_take(Size size) {
    return take(size);
}

EXPORT("page_give") void page_give(void *block) {
    give(block);
}
