/* The C functions of the kit's standard library, for Linux on ARM64: heap, words of the command line, and the number of the last fault.
   The kit has them as compiled code for x86-64. All else that the program calls is in the C library. The contracts that they must keep are
   those of the kit's libc/specs/Heap.antt and os/src/c.rt. */

typedef unsigned long usize;

extern void *malloc(usize), *realloc(void *, usize);
extern void free(void *);
extern int *__errno_location(void);

/* The kit's libc/src/types.rt: `Tried`. */
typedef struct {
    _Bool ok;
    void *p;
} Tried;

/* What a pointer points to where there is no memory. */
static char nothing;

static Tried tried(void *block) {
    return (Tried){block != 0, block ? block : &nothing};
}

Tried rattle_alloc(usize size, usize align) {
    return tried(malloc(size ? size : align));
}

/* What the block has is kept by realloc. */
Tried rattle_realloc(void *block, usize kept, usize size, usize align) {
    (void)kept;
    return tried(realloc(block, size ? size : align));
}

void rattle_dealloc(void *block) {
    free(block);
}

int rattle_errno(void) {
    return *__errno_location();
}

void rattle_set_errno(int number) {
    *__errno_location() = number;
}

static usize count;
static char **words;

/* glibc passes the words of the command line to each function that it calls before main. */
__attribute__((constructor)) static void keep(int argc, char **argv) {
    count = argc;
    words = argv;
}

/* Copies a word, and returns its length: -1 if there is no such word, -2 if it doesn't fit. */
long rattle_arg(usize index, char *to, usize room) {
    if (index >= count) return -1;
    const char *word = words[index];
    usize length = 0;
    for (; word[length]; length++) {
        if (length == room) return -2;
        to[length] = word[length];
    }
    return length;
}
