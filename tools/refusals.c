// Refuses growths of memory, which it counts from 1: that of the number in REFUSE, or with FROM all from that one on. At the program's end, also
// where it aborts, it writes their count to descriptor 9. With MARK a growth of so many bytes is a mark, which isn't counted: as it is let go, the
// text in it, if it has one, goes to descriptor 9 with the growths since the mark before, in a line.
typedef unsigned long size;
extern void *__libc_malloc(size), *__libc_realloc(void *, size), __libc_free(void *);
extern char *getenv(const char *);
extern long atol(const char *);
extern int dprintf(int, const char *, ...), raise(int);

static long count, refused = -1, all, grown, before;
static size mark;
static char *marked;

static void begin(void) {
    char *number = getenv("REFUSE"), *bytes = getenv("MARK");
    refused = number ? atol(number) : 0;
    all = getenv("FROM") != 0;
    mark = bytes ? atol(bytes) : 0;
}

static int refuse(void) {
    count += 1;
    return refused > 0 && (count == refused || (all && count > refused));
}

static void *new_mark(size bytes) {
    grown = count - before;
    marked = __libc_malloc(bytes);
    for (size i = 0; marked && i < bytes; i++) ((volatile char *)marked)[i] = 0;
    return marked;
}

void *malloc(size bytes) {
    if (refused < 0) begin();
    if (mark && bytes == mark) return new_mark(bytes);
    return refuse() ? 0 : __libc_malloc(bytes);
}

void *realloc(void *place, size bytes) {
    if (refused < 0) begin();
    return refuse() ? 0 : __libc_realloc(place, bytes);
}

void free(void *place) {
    if (place && place == marked) {
        if (*marked) dprintf(9, "%s\t%ld\n", marked, grown);
        marked = 0;
        before = count;
    }
    __libc_free(place);
}

__attribute__((destructor)) static void end(void) { dprintf(9, "%ld", count); }

_Noreturn void abort(void) {
    end();
    raise(6);
    for (;;) {
    }
}
