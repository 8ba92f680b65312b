/* Refuses the allocations of a program from number FIRST_REFUSED to number LAST_REFUSED, counted from 1, and writes
   their number to file descriptor 9 at the end. It is preloaded. */
extern void *__libc_malloc(unsigned long), *__libc_calloc(unsigned long, unsigned long);
extern void *__libc_realloc(void *, unsigned long);
extern char *getenv(const char *);
extern long write(int, const void *, unsigned long);

static unsigned long asked;

static unsigned long number(const char *name) {
    unsigned long value = 0;
    for (char *digit = getenv(name); digit && *digit; digit++) value = 10 * value + *digit - '0';
    return value;
}

static int refused(void) {
    static unsigned long first, last;
    if (asked++ == 0) first = number("FIRST_REFUSED"), last = number("LAST_REFUSED");
    return first <= asked && asked <= last;
}

void *malloc(unsigned long size) { return refused() ? 0 : __libc_malloc(size); }
void *calloc(unsigned long count, unsigned long size) { return refused() ? 0 : __libc_calloc(count, size); }
void *realloc(void *old, unsigned long size) { return refused() ? 0 : __libc_realloc(old, size); }

__attribute__((destructor)) static void tell(void) { write(9, &asked, sizeof asked); }
