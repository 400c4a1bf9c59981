/* Loaded before a program, refuses the program's Nth growth of memory, where N is the variable REFUSE, and says so on
   standard error. Needs no header, so that any C compiler makes it. */

typedef unsigned long size;

extern void *dlsym(void *, const char *);
extern char *getenv(const char *);
extern long atol(const char *);
extern long write(int, const void *, size);

#define NEXT ((void *)-1L)

static int is_due(void) {
    static long left = -1;
    if (left < 0) {
        const char *number = getenv("REFUSE");
        left = number ? atol(number) : 0;
    }
    if (left == 0 || --left != 0) {
        return 0;
    }
    write(2, "refused\n", 8);
    return 1;
}

void *malloc(size octets) {
    static void *(*next)(size);
    if (!next) {
        next = (void *(*)(size))dlsym(NEXT, "malloc");
    }
    return is_due() ? 0 : next(octets);
}

void *realloc(void *old, size octets) {
    static void *(*next)(void *, size);
    if (!next) {
        next = (void *(*)(void *, size))dlsym(NEXT, "realloc");
    }
    return is_due() ? 0 : next(old, octets);
}
