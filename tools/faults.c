/* Makes calls of the program that it is loaded into fail, or move fewer bytes: reads of standard input, writes of standard output and
   of standard error, and allocations. tools/check-faults compiles it, and loads it with LD_PRELOAD.

   It reads from its environment, with counts from 0:
     FAULTS_READ, FAULTS_OUT, FAULTS_NOTES, FAULTS_ALLOC  N: call N fails; N..M: each from N to M fails; N..: each from N on fails
     FAULTS_ERROR  the number of the error with which reads and writes fail, if it isn't that of a fault: 4, as where a signal interrupts them
     FAULTS_SHORT_READ, FAULTS_SHORT_OUT, FAULTS_SHORT_NOTES  N: call N moves one byte at most
     FAULTS_SIZE  the most bytes that a read or write moves
     FAULTS_REPORT  the descriptor to which it tells at the end, of each of the four, how many calls there were, how many failed and
                    how many bytes were moved before the first that failed

   It includes no header, so that any C compiler will do; the numbers are those of Linux on x86-64. */
typedef unsigned long size;

extern long syscall(long number, ...);
extern char *getenv(const char *name);
extern int *__errno_location(void);
extern void *__libc_malloc(size count);
extern void *__libc_calloc(size count, size each);
extern void *__libc_realloc(void *old, size count);

enum { READ_CALL = 0, WRITE_CALL = 1, EXIT_CALL = 231, NO_IO = 5, NO_MEMORY = 12, NO_SPACE = 28, NEVER = -1 };

struct stream {
    long from, to;        /* the calls that fail */
    long one_byte;        /* the call that moves one byte */
    long calls, failed, moved;
};
enum { INPUT, OUT, NOTES, MEMORY, STREAMS };
static struct stream streams[STREAMS];
static size most = ~0ul;
static long error_number = NEVER;
static int is_on;

static long number(const char **at) {
    long value = 0;
    while (**at >= '0' && **at <= '9')
        value = 10 * value + (*(*at)++ - '0');
    return value;
}

static long number_of(const char *name) {
    const char *text = getenv(name);
    return text ? number(&text) : NEVER;
}

static void set(struct stream *stream, const char *fails, const char *one_byte) {
    const char *text = getenv(fails);
    stream->from = stream->to = NEVER;
    if (text) {
        stream->from = number(&text);
        stream->to = *text == '.' ? (long)(~0ul >> 1) : stream->from;
        while (*text == '.')
            text++;
        if (*text)
            stream->to = number(&text);
    }
    stream->one_byte = one_byte ? number_of(one_byte) : NEVER;
}

__attribute__((constructor)) static void begin(void) {
    set(&streams[INPUT], "FAULTS_READ", "FAULTS_SHORT_READ");
    set(&streams[OUT], "FAULTS_OUT", "FAULTS_SHORT_OUT");
    set(&streams[NOTES], "FAULTS_NOTES", "FAULTS_SHORT_NOTES");
    set(&streams[MEMORY], "FAULTS_ALLOC", 0);
    error_number = number_of("FAULTS_ERROR");
    if (number_of("FAULTS_SIZE") > 0)
        most = number_of("FAULTS_SIZE");
    is_on = 1;
}

static char *decimal(char *end, long value) {
    do
        *--end = '0' + value % 10;
    while (value /= 10);
    return end;
}

__attribute__((destructor)) static void finish(void) {
    long report = number_of("FAULTS_REPORT");
    if (report < 0)
        return;
    for (int n = 0; n < STREAMS; n++) {
        long values[] = {streams[n].calls, streams[n].failed, streams[n].moved};
        for (int k = 0; k < 3; k++) {
            char text[24], *end = text + sizeof text;
            end[-1] = k == 2 ? '\n' : ' ';
            char *start = decimal(end - 1, values[k]);
            syscall(WRITE_CALL, report, start, end - start);
        }
    }
}

/* A program with threads ends so, and then no destructor is called. */
__attribute__((noreturn)) void _exit(int status) {
    finish();
    for (;;)
        syscall(EXIT_CALL, status);
}

/* Whether this call of the stream fails. */
static int fails(struct stream *stream) {
    long call = stream->calls++;
    int is_failing = call >= stream->from && call <= stream->to;
    stream->failed += is_failing;
    return is_failing;
}

static long move(struct stream *stream, long call, int fd, void *bytes, size count, int error) {
    if (fails(stream)) {
        *__errno_location() = error_number > 0 ? error_number : error;
        return -1;
    }
    size limit = stream->calls - 1 == stream->one_byte ? 1 : most;
    long moved = syscall(call, fd, bytes, count < limit ? count : limit);
    if (moved > 0 && !stream->failed)
        stream->moved += moved;
    return moved;
}

long read(int fd, void *bytes, size count) {
    return fd == 0 ? move(&streams[INPUT], READ_CALL, fd, bytes, count, NO_IO) : syscall(READ_CALL, fd, bytes, count);
}

long write(int fd, const void *bytes, size count) {
    struct stream *stream = fd == 1 ? &streams[OUT] : fd == 2 ? &streams[NOTES] : 0;
    return stream ? move(stream, WRITE_CALL, fd, (void *)bytes, count, NO_SPACE) : syscall(WRITE_CALL, fd, bytes, count);
}

static int lacks_memory(void) {
    if (!is_on || !fails(&streams[MEMORY]))
        return 0;
    *__errno_location() = NO_MEMORY;
    return 1;
}

void *malloc(size count) { return lacks_memory() ? 0 : __libc_malloc(count); }
void *calloc(size count, size each) { return lacks_memory() ? 0 : __libc_calloc(count, each); }
void *realloc(void *old, size count) { return lacks_memory() ? 0 : __libc_realloc(old, count); }
