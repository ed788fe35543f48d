/* The heap of the WebAssembly module. The standard library's allocator calls the three functions rattle_alloc, rattle_realloc and
   rattle_dealloc. In a Linux program the kit's C library implements them with malloc; here they take memory from the module itself.
   The contracts that they must keep are those of the kit's libc/specs/Heap.antt: blocks don't overlap, each is aligned to 16 bytes,
   and no address is null.

   A block's size is a power of two, at least 16 bytes. The 16 bytes before a block hold the exponent. A freed block goes onto the
   list of its size and is used again for that size. Other blocks are taken from the end of the memory, which grows as needed. */

typedef unsigned long usize;
typedef unsigned char byte;

/* The kit's libc/src/types.rt: `Tried`. */
typedef struct {
    _Bool ok;
    byte *p;
} Tried;

/* The linker's symbol for the end of the stack and the constants. */
extern byte __heap_base;

#define PAGE 65536ul
#define EXPONENTS 48
#define LARGEST (1ul << 40)

static byte *freed[EXPONENTS];
static usize end_of_blocks;

static int exponent_for(usize size) {
    return size <= 16 ? 4 : 64 - __builtin_clzl(size - 1);
}

/* Grows the memory to hold `end` bytes, by an eighth of it at once where that is possible. */
static _Bool reaches(usize end) {
    usize have = __builtin_wasm_memory_size(0) * PAGE;
    if (end <= have) return 1;
    usize pages = (end - have + PAGE - 1) / PAGE;
    usize eighth = have / PAGE / 8;
    if (pages < eighth && __builtin_wasm_memory_grow(0, eighth) != -1ul) return 1;
    return __builtin_wasm_memory_grow(0, pages) != -1ul;
}

/* Returns a block of at least `size` bytes, or null. */
static byte *take(usize size) {
    if (size > LARGEST) return 0;
    int exponent = exponent_for(size);
    byte *block = freed[exponent];
    if (block) {
        freed[exponent] = *(byte **)block;
        return block;
    }
    if (!end_of_blocks) end_of_blocks = ((usize)&__heap_base + 15) & -16ul;
    usize at = end_of_blocks + 16;
    usize end = at + (1ul << exponent);
    if (!reaches(end)) return 0;
    end_of_blocks = end;
    *(usize *)(at - 16) = exponent;
    return (byte *)at;
}

static Tried tried(byte *block) {
    return (Tried){block != 0, block ? block : (byte *)16};
}

Tried rattle_alloc(usize size, usize align) {
    return tried(take(size ? size : align));
}

void rattle_dealloc(byte *block) {
    int exponent = *(usize *)(block - 16);
    *(byte **)block = freed[exponent];
    freed[exponent] = block;
}

Tried rattle_realloc(byte *block, usize kept, usize size, usize align) {
    usize wanted = size ? size : align;
    if (wanted <= LARGEST && exponent_for(wanted) <= (int)*(usize *)(block - 16)) return tried(block);
    byte *larger = take(wanted);
    if (larger) {
        __builtin_memcpy(larger, block, kept);
        rattle_dealloc(block);
    }
    return tried(larger);
}

/* Returns space for a slice that the page passes, or null. */
__attribute__((export_name("ngc_space"))) byte *ngc_space(usize size) {
    return take(size);
}
