/*
 * Lets one call on a file or on a socket fail, as a device does, or one for a thread, or makes the syncs of a file slow, to show what a
 * program makes of that.
 *
 *     LD_PRELOAD=./failing.so FILE=PATH FAILED=7 ERROR=5 PROGRAM            the seventh call on the file fails with EIO
 *     LD_PRELOAD=./failing.so FILE=PATH FAILED=7 ERROR=28 HALF=1 PROGRAM    if it writes, it writes a half, and the next one fails
 *     LD_PRELOAD=./failing.so FILE=PATH GROWN=170 PROGRAM                   a zero is written at byte 170, before the file is locked
 *     LD_PRELOAD=./failing.so FILE=PATH SLOW=2000 PROGRAM                   each sync of the file takes 2,000 microseconds longer
 *     LD_PRELOAD=./failing.so RECEIVED=7 ERROR=5 PROGRAM                    the seventh receive, or wait for one, fails
 *     LD_PRELOAD=./failing.so SENT=7 ERROR=105 PROGRAM                      the seventh datagram cannot be sent
 *     LD_PRELOAD=./failing.so THREAD=2 PROGRAM                              the second thread that it asks for is refused
 *
 * A call on the file is one that opens, locks, reads, writes, cuts or syncs it, or asks for its size or changes its mode. A call that
 * fails leaves the file as it was. No header is read, since the toolchain's compiler has none.
 */
typedef __SIZE_TYPE__ size;

void *dlsym(void *library, const char *name);
char *getenv(const char *name);
unsigned long strtoul(const char *digits, char **end, int base);
int strcmp(const char *one, const char *other);
int usleep(unsigned microseconds);
int *__errno_location(void);

enum { EAGAIN = 11, FILES_MAX = 1024 };

/* How many calls of a kind there were, and which of them fails; none where that is 0. */
struct turn {
    unsigned long calls, failed;
};

static struct turn on_file, received, sent, threads;
static unsigned long fault, halved, grown, slow;
static const char *path;
/* Whether a descriptor is the file, a socket, or what waits for a socket. */
static char is_it[FILES_MAX], is_socket[FILES_MAX], is_waited[FILES_MAX];

static void *next(const char *name) { return dlsym((void *)-1L, name); }

static unsigned long number(const char *name) {
    const char *word = getenv(name);
    return word ? strtoul(word, 0, 10) : 0;
}

__attribute__((constructor)) static void begin(void) {
    path = getenv("FILE");
    on_file.failed = number("FAILED");
    received.failed = number("RECEIVED");
    sent.failed = number("SENT");
    threads.failed = number("THREAD");
    fault = number("ERROR");
    halved = number("HALF");
    grown = number("GROWN");
    slow = number("SLOW");
}

/* Counts a call, and tells whether it fails. */
static int fails(struct turn *turn) {
    if (__atomic_add_fetch(&turn->calls, 1, __ATOMIC_RELAXED) != turn->failed)
        return 0;
    *__errno_location() = (int)fault;
    return 1;
}

/* Whether it is the file, and the call on it fails. */
static int fails_on(int file) { return file >= 0 && file < FILES_MAX && is_it[file] && fails(&on_file); }

int open(const char *name, int flags, unsigned mode) {
    int it = path && strcmp(name, path) == 0;
    if (it && fails(&on_file))
        return -1;
    int file = ((int (*)(const char *, int, unsigned))next("open"))(name, flags, mode);
    if (file >= 0 && file < FILES_MAX)
        is_it[file] = (char)it;
    return file;
}

int close(int file) {
    if (file >= 0 && file < FILES_MAX)
        is_it[file] = is_socket[file] = is_waited[file] = 0;
    return ((int (*)(int))next("close"))(file);
}

long read(int file, void *bytes, size count) {
    return fails_on(file) ? -1 : ((long (*)(int, void *, size))next("read"))(file, bytes, count);
}

long pread(int file, void *bytes, size count, long at) {
    return fails_on(file) ? -1 : ((long (*)(int, void *, size, long))next("pread"))(file, bytes, count, at);
}

long pwrite(int file, const void *bytes, size count, long at) {
    long (*whole)(int, const void *, size, long) = (long (*)(int, const void *, size, long))next("pwrite");
    if (!fails_on(file))
        return whole(file, bytes, count, at);
    if (!halved || count < 2)
        return -1;
    on_file.failed += 1;
    return whole(file, bytes, count / 2, at);
}

/* A sync of the file, or of another, by this call. */
static int synced(int file, const char *call) {
    if (slow && file >= 0 && file < FILES_MAX && is_it[file])
        usleep((unsigned)slow);
    return fails_on(file) ? -1 : ((int (*)(int))next(call))(file);
}

int fsync(int file) { return synced(file, "fsync"); }

int fdatasync(int file) { return synced(file, "fdatasync"); }

int ftruncate(int file, long count) { return fails_on(file) ? -1 : ((int (*)(int, long))next("ftruncate"))(file, count); }

int flock(int file, int how) {
    if (grown && file >= 0 && file < FILES_MAX && is_it[file])
        ((long (*)(int, const void *, size, long))next("pwrite"))(file, "", 1, (long)grown);
    return fails_on(file) ? -1 : ((int (*)(int, int))next("flock"))(file, how);
}

int fchmod(int file, unsigned mode) { return fails_on(file) ? -1 : ((int (*)(int, unsigned))next("fchmod"))(file, mode); }

int statx(int file, const char *name, int flags, unsigned mask, void *found) {
    if (path && name && strcmp(name, path) == 0 ? fails(&on_file) : fails_on(file))
        return -1;
    return ((int (*)(int, const char *, int, unsigned, void *))next("statx"))(file, name, flags, mask, found);
}

long recvfrom(int socket, void *bytes, size count, int flags, void *from, unsigned *length) {
    long (*whole)(int, void *, size, int, void *, unsigned *) = (long (*)(int, void *, size, int, void *, unsigned *))next("recvfrom");
    return fails(&received) ? -1 : whole(socket, bytes, count, flags, from, length);
}

int socket(int family, int kind, int protocol) {
    int it = ((int (*)(int, int, int))next("socket"))(family, kind, protocol);
    if (it >= 0 && it < FILES_MAX)
        is_socket[it] = 1;
    return it;
}

int epoll_ctl(int poll, int act, int file, void *event) {
    if (poll >= 0 && poll < FILES_MAX && file >= 0 && file < FILES_MAX && is_socket[file])
        is_waited[poll] = 1;
    return ((int (*)(int, int, int, void *))next("epoll_ctl"))(poll, act, file, event);
}

/* A node waits for its input in the same way, which is no receive. */
int epoll_wait(int poll, void *events, int count, int milliseconds) {
    int it = poll >= 0 && poll < FILES_MAX && is_waited[poll];
    return it && fails(&received) ? -1 : ((int (*)(int, void *, int, int))next("epoll_wait"))(poll, events, count, milliseconds);
}

long sendto(int socket, const void *bytes, size count, int flags, const void *to, unsigned length) {
    long (*whole)(int, const void *, size, int, const void *, unsigned) =
        (long (*)(int, const void *, size, int, const void *, unsigned))next("sendto");
    return fails(&sent) ? -1 : whole(socket, bytes, count, flags, to, length);
}

int pthread_create(void *made, const void *how, void *(*body)(void *), void *given) {
    if (fails(&threads))
        return EAGAIN;
    return ((int (*)(void *, const void *, void *(*)(void *), void *))next("pthread_create"))(made, how, body, given);
}
