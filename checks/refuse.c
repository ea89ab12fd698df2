/*
 * Refuses a request for memory of a program, or some, to show what the program makes of that.
 *
 *     LD_PRELOAD=./refuse.so REFUSED=7 PROGRAM       its seventh request is refused
 *     LD_PRELOAD=./refuse.so REFUSED=7 MORE=2 PROGRAM    and so are the two after that
 *     LD_PRELOAD=./refuse.so COUNTED=FILE PROGRAM    none is, and FILE has their number so far, at each moment
 *     LD_PRELOAD=./refuse.so SHARED=FILE PROGRAM     those that FILE says, which may be changed at each moment: it has three numbers of
 *                                                    64 bits, how many there were so far, REFUSED, and MORE
 *
 * A request is a call of malloc, calloc, realloc, aligned_alloc or posix_memalign. What is not refused goes to the
 * functions of the C library under their other names. No header is read, since the toolchain's compiler has none.
 */
typedef __SIZE_TYPE__ size;

void *__libc_malloc(size bytes);
void *__libc_calloc(size count, size bytes);
void *__libc_realloc(void *old, size bytes);
void *__libc_memalign(size alignment, size bytes);
char *getenv(const char *name);
unsigned long strtoul(const char *digits, char **end, int base);
int creat(const char *path, unsigned mode);
long pwrite(int file, const void *bytes, size count, long at);
int open(const char *path, int flags, ...);
int close(int file);
void *mmap(void *at, size bytes, int protection, int flags, int file, long offset);
int *__errno_location(void);

enum { ENOMEM = 12, DIGITS = 20, O_RDWR = 2, PROT_READ_WRITE = 3, MAP_SHARED = 1 };

/* How many requests there were, the first that is refused, and how many more are. */
struct numbers {
    unsigned long requests, refused, more;
};

static struct numbers own, *numbers = &own;

/* The file of the number of requests; none is open where it is negative. */
static int counted = -1;

/* Takes the numbers that a file has, and counts in it. */
static void share(const char *path) {
    int file = open(path, O_RDWR);
    if (file < 0)
        return;
    void *shared = mmap(0, sizeof(struct numbers), PROT_READ_WRITE, MAP_SHARED, file, 0);
    if (shared != (void *)-1)
        numbers = shared;
    close(file);
}

/* Reads which request is to be refused, before the program begins; they are numbered from 1. */
__attribute__((constructor)) static void begin(void) {
    const char *number = getenv("REFUSED");
    own.refused = number ? strtoul(number, 0, 10) : 0;
    number = getenv("MORE");
    own.more = number ? strtoul(number, 0, 10) : 0;
    const char *file = getenv("COUNTED");
    counted = file ? creat(file, 0600) : -1;
    file = getenv("SHARED");
    if (file)
        share(file);
    numbers->requests = 0;
}

/* Writes the number of requests over the one before, which has no more digits. It is not left to the end of the program: one
   that has threads may end without its destructors. */
static void tell(unsigned long number) {
    char text[DIGITS + 1];
    int at = DIGITS;
    text[at] = '\n';
    for (; number; number /= 10)
        text[--at] = (char)('0' + number % 10);
    if (pwrite(counted, text + at, (size)(DIGITS + 1 - at), 0) < 0)
        counted = -1;
}

/* Counts a request, and tells whether it is refused. */
static int refuses(void) {
    unsigned long request = __atomic_add_fetch(&numbers->requests, 1, __ATOMIC_RELAXED);
    unsigned long refused = __atomic_load_n(&numbers->refused, __ATOMIC_RELAXED);
    if (counted >= 0)
        tell(request);
    if (!refused || request < refused || request - refused > __atomic_load_n(&numbers->more, __ATOMIC_RELAXED))
        return 0;
    *__errno_location() = ENOMEM;
    return 1;
}

void *malloc(size bytes) { return refuses() ? 0 : __libc_malloc(bytes); }

void *calloc(size count, size bytes) { return refuses() ? 0 : __libc_calloc(count, bytes); }

void *realloc(void *old, size bytes) { return refuses() ? 0 : __libc_realloc(old, bytes); }

void *aligned_alloc(size alignment, size bytes) { return refuses() ? 0 : __libc_memalign(alignment, bytes); }

int posix_memalign(void **made, size alignment, size bytes) {
    void *memory = refuses() ? 0 : __libc_memalign(alignment, bytes);
    if (memory)
        *made = memory;
    return memory ? 0 : ENOMEM;
}
