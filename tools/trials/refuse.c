/* Refuses growths of memory, where this is loaded before the C library (LD_PRELOAD).

   A growth is a call of malloc or realloc, by which alone the programs of this repository take memory. REFUSE_SCOPE says
   which are counted: those between the marks that a test sets ("marks"), or all ("all"). REFUSE_AT is the number of the one
   that is refused, counted from 1; none where it is 0. With REFUSE_ON=1 all from that one on are refused as well. A mark is a
   growth of a size that nothing else asks for; it is never refused. What was counted is told at the end in the file
   REFUSE_TOLD: how many growths, how many of them were refused, how often the marks that a call begins, ends, and has
   answered want of memory were set. */
/* No header is included, so that the kit's clang compiles this, which has none. */
typedef unsigned long size_t;
extern void *dlsym(void *, const char *);
extern char *getenv(const char *);
extern long atol(const char *);
extern int snprintf(char *, size_t, const char *, ...);
extern int open(const char *, int, ...);
extern long write(int, const void *, size_t);
extern int close(int);
extern void _exit(int);

#define NULL ((void *)0)
#define NEXT ((void *)-1L)
#define CREATED_TO_WRITE (01 | 0100 | 01000)

enum { BEGINS = 1000003, ENDS = 1000033, LACKED = 1000037 };

static long at, growths, refused, begun, ended, lacked;
static int counts, goes_on, is_set;

static void *(*real_malloc)(size_t);
static void *(*real_realloc)(void *, size_t);

__attribute__((constructor)) static void set(void)
{
    const char *scope = getenv("REFUSE_SCOPE"), *number = getenv("REFUSE_AT"), *on = getenv("REFUSE_ON");
    real_malloc = dlsym(NEXT, "malloc");
    real_realloc = dlsym(NEXT, "realloc");
    at = number ? atol(number) : 0;
    goes_on = on && *on == '1';
    counts = scope && *scope == 'a';
    is_set = 1;
}

__attribute__((destructor)) static void tell(void)
{
    const char *path = getenv("REFUSE_TOLD");
    char text[160];
    int file, length;
    is_set = 0;
    if (!path || (file = open(path, CREATED_TO_WRITE, 0600)) < 0)
        return;
    length = snprintf(text, sizeof text, "%ld %ld %ld %ld %ld\n", growths, refused, begun, ended, lacked);
    if (write(file, text, length) != length)
        _exit(99);
    close(file);
}

/* Whether this growth is refused. */
static int is_refused(size_t size)
{
    if (!is_set)
        return 0;
    if (size == BEGINS || size == ENDS) {
        begun += size == BEGINS;
        ended += size == ENDS;
        counts = size == BEGINS;
        return 0;
    }
    if (size == LACKED) {
        lacked += 1;
        return 0;
    }
    if (!counts)
        return 0;
    growths += 1;
    if (!at || (goes_on ? growths < at : growths != at))
        return 0;
    refused += 1;
    return 1;
}

void *malloc(size_t size)
{
    if (!real_malloc)
        real_malloc = dlsym(NEXT, "malloc");
    return is_refused(size) ? NULL : real_malloc(size);
}

void *realloc(void *block, size_t size)
{
    if (!real_realloc)
        real_realloc = dlsym(NEXT, "realloc");
    return is_refused(size) ? NULL : real_realloc(block, size);
}
