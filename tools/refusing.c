/* Refuses one request for memory of a program that is started with this library in LD_PRELOAD. Without headers, so that
   the kit's compiler alone builds it; tools/memory.py does.

   REFUSED        the number of the request that is refused, from 1; none where it is 0
   REFUSED_COUNT  a file of at least 8 bytes, which tells how many requests there were */
typedef unsigned long word;

extern void *__libc_malloc(word);
extern void *__libc_calloc(word, word);
extern void *__libc_realloc(void *, word);
extern void *__libc_memalign(word, word);
extern char *getenv(const char *);
extern int open(const char *, int, ...);
extern void *mmap(void *, word, int, int, int, long);
extern void _exit(int);

static word unseen, *count = &unseen, refused;

__attribute__((constructor)) static void begin(void) {
    const char *number = getenv("REFUSED"), *path = getenv("REFUSED_COUNT");
    for (; number && *number; number++) refused = refused * 10 + (*number - '0');
    if (!path) _exit(120);
    int file = open(path, 2);
    void *page = mmap(0, 4096, 3, 1, file, 0);
    if (file < 0 || page == (void *)-1) _exit(120);
    count = page;
}

static int is_refused(void) { return ++*count == refused; }

void *malloc(word size) { return is_refused() ? 0 : __libc_malloc(size); }
void *calloc(word count, word size) { return is_refused() ? 0 : __libc_calloc(count, size); }
void *realloc(void *block, word size) { return is_refused() ? 0 : __libc_realloc(block, size); }
void *memalign(word edge, word size) { return is_refused() ? 0 : __libc_memalign(edge, size); }
void *aligned_alloc(word edge, word size) { return is_refused() ? 0 : __libc_memalign(edge, size); }

int posix_memalign(void **block, word edge, word size) {
    void *made = is_refused() ? 0 : __libc_memalign(edge, size);
    if (!made) return 12;
    *block = made;
    return 0;
}
