/*
 * Notes what a program tells of its journal before it is synced, and keeps what a loss of power would leave of the file.
 *
 *     LD_PRELOAD=./synced.so FILE=PATH KEPT=COPY TOLD=NOTES PROGRAM
 *
 * COPY has the bytes that the file had when it was last synced, once the folder that has its name was synced too; what the file had when
 * it was opened counts as synced. NOTES gets a line for each ticket, durable or kept commit, frame and Head that is told while its commit
 * is not in COPY, and for each that is told while a truncation is not synced. No header is read, since the toolchain's compiler has none.
 */
typedef __SIZE_TYPE__ size;
typedef __UINT64_TYPE__ number;

void *dlsym(void *library, const char *name);
char *getenv(const char *name);
int access(const char *name, int how);
int rename(const char *old, const char *new);
size strlen(const char *text);
int strcmp(const char *one, const char *other);
int strncmp(const char *one, const char *other, size count);
int snprintf(char *text, size count, const char *form, ...);
void *malloc(size count);
void free(void *bytes);

enum { CREATE = 0100, WRITE = 01, TRUNCATE = 01000, APPEND = 02000, FILES_MAX = 1024, PATH_MAX = 4096, BYTES_MAX = 1 << 26 };
enum { OUTPUT = 1, ERRORS = 2, FRAME = 1, HEAD = 3 };

static const char *path, *copy, *notes;
static char folder[PATH_MAX];
static char is_it[FILES_MAX], is_folder[FILES_MAX];
/* Whether the folder has the file's name for good, and whether the file was changed, or truncated, since it was synced. */
static int named, changed, truncated;
static int file_is = -1;
/* How many commits the copy has. */
static number synced;

static void *next(const char *name) { return dlsym((void *)-1L, name); }

static long whole_write(int file, const void *bytes, size count) {
    return ((long (*)(int, const void *, size))next("write"))(file, bytes, count);
}

static int whole_open(const char *name, int flags, unsigned mode) {
    return ((int (*)(const char *, int, unsigned))next("open"))(name, flags, mode);
}

static void whole_close(int file) { ((int (*)(int))next("close"))(file); }

__attribute__((constructor)) static void begin(void) {
    path = getenv("FILE");
    copy = getenv("KEPT");
    notes = getenv("TOLD");
    if (!path || strlen(path) >= PATH_MAX)
        return;
    snprintf(folder, PATH_MAX, "%s", path);
    size at = strlen(folder);
    while (at && folder[at] != '/')
        at -= 1;
    folder[at] = 0;
}

static int is(const char *marks, int file) { return file >= 0 && file < FILES_MAX && marks[file]; }

static number big(const unsigned char *bytes, int count) {
    number found = 0;
    for (int at = 0; at < count; at++)
        found = found << 8 | bytes[at];
    return found;
}

/* How many whole records a journal of these bytes has. */
static number records(const unsigned char *bytes, size count) {
    size at = 6;
    for (int table = 0; count >= 6 && table < bytes[5] && at < count; table++)
        at += 1u + bytes[at];
    number found = 0;
    while (at + 4 <= count && at + 4 + big(bytes + at, 4) <= count) {
        at += 4 + big(bytes + at, 4);
        found += 1;
    }
    return found;
}

/* Makes the copy, of the file as it is. */
static void keep(int file) {
    unsigned char *bytes = malloc(BYTES_MAX);
    long count = ((long (*)(int, void *, size, long))next("pread"))(file, bytes, BYTES_MAX, 0);
    char part[PATH_MAX];
    snprintf(part, PATH_MAX, "%s.part", copy);
    int to = whole_open(part, CREATE | WRITE | TRUNCATE, 0600);
    if (count >= 0 && whole_write(to, bytes, (size)count) == count)
        rename(part, copy);
    whole_close(to);
    if (count >= 0)
        __atomic_store_n(&synced, records(bytes, (size)count), __ATOMIC_SEQ_CST);
    free(bytes);
}

static void note(const char *what, number commit) {
    char line[200];
    int count = snprintf(line, sizeof line, "%s %lu is told: %lu synced%s\n", what, (unsigned long)commit, (unsigned long)synced,
                         truncated ? ", and a truncation is not" : "");
    int to = whole_open(notes, CREATE | WRITE | APPEND, 0600);
    whole_write(to, line, (size)count);
    whole_close(to);
}

static void told(const char *what, number commit) {
    if (truncated || commit > __atomic_load_n(&synced, __ATOMIC_SEQ_CST))
        note(what, commit);
}

/* Looks in a line for a word and a number behind it. */
static void look(const char *line, size count, const char *word) {
    size length = strlen(word);
    for (size at = 0; at + length + 1 < count; at++) {
        if (strncmp(line + at, word, length) || line[at + length] != ' ')
            continue;
        number commit = 0;
        size from = at + length + 1, end = from;
        for (; end < count && line[end] >= '0' && line[end] <= '9'; end++)
            commit = commit * 10 + (number)(line[end] - '0');
        if (end > from)
            told(word, commit);
    }
}

/* What was written of a line of the output, and of one of the errors; a line may come in pieces. */
static char lines[ERRORS + 1][PATH_MAX];
static size counts[ERRORS + 1];
static char busy;

static void hear(int file, const char *text, size count) {
    while (__atomic_test_and_set(&busy, __ATOMIC_SEQ_CST))
        ;
    for (size at = 0; at < count; at++) {
        if (text[at] != '\n' && counts[file] < PATH_MAX) {
            lines[file][counts[file]++] = text[at];
            continue;
        }
        look(lines[file], counts[file], "ticket");
        look(lines[file], counts[file], "durable");
        look(lines[file], counts[file], "kept");
        counts[file] = 0;
    }
    __atomic_clear(&busy, __ATOMIC_SEQ_CST);
}

int open(const char *name, int flags, unsigned mode) {
    int it = path && strcmp(name, path) == 0;
    int there = it && access(name, 0) == 0;
    int file = whole_open(name, flags, mode);
    if (file < 0 || file >= FILES_MAX)
        return file;
    is_it[file] = (char)it;
    is_folder[file] = (char)(path && strcmp(name, *folder ? folder : ".") == 0);
    if (it) {
        named = there;
        changed = truncated = 0;
        file_is = file;
        if (there)
            keep(file);
    }
    return file;
}

int close(int file) {
    if (file >= 0 && file < FILES_MAX)
        is_it[file] = is_folder[file] = 0;
    return ((int (*)(int))next("close"))(file);
}

long write(int file, const void *bytes, size count) {
    if (path && (file == OUTPUT || file == ERRORS))
        hear(file, bytes, count);
    return whole_write(file, bytes, count);
}

long pwrite(int file, const void *bytes, size count, long at) {
    if (is(is_it, file))
        changed = 1;
    return ((long (*)(int, const void *, size, long))next("pwrite"))(file, bytes, count, at);
}

int ftruncate(int file, long count) {
    if (is(is_it, file))
        changed = truncated = 1;
    return ((int (*)(int, long))next("ftruncate"))(file, count);
}

static int after_sync(int file, int status) {
    if (status == 0 && is(is_it, file)) {
        changed = truncated = 0;
        if (named)
            keep(file);
    }
    if (status == 0 && is(is_folder, file) && !named) {
        named = 1;
        if (!changed)
            keep(file_is);
    }
    return status;
}

int fsync(int file) { return after_sync(file, ((int (*)(int))next("fsync"))(file)); }

int fdatasync(int file) { return after_sync(file, ((int (*)(int))next("fdatasync"))(file)); }

long sendto(int socket, const void *bytes, size count, int flags, const void *to, unsigned length) {
    const unsigned char *data = bytes;
    if (path && count >= 23 && data[3] == FRAME)
        told("frame of", big(data + 15, 8));
    if (path && count >= 31 && data[3] == HEAD)
        told("head", big(data + 23, 8));
    return ((long (*)(int, const void *, size, int, const void *, unsigned))next("sendto"))(socket, bytes, count, flags, to, length);
}
