/* For LD_PRELOAD: the request for memory number $REFUSED is refused. The number of requests, counted before the C
   library sees them, is written to the file descriptor $TOLD; with $CALLERS, 8 bytes for each in place of it, which are
   the same if the innermost return addresses on the stack are, that many of them. The write number $FAILED and all later ones fail as if a disk
   were full. With $INTERRUPTED, every other read and write fails as if a signal came. */
extern void *__libc_malloc(unsigned long);
extern void *__libc_realloc(void *, unsigned long);
extern int dprintf(int, const char *, ...);
extern long syscall(long, ...);
extern int *__errno_location(void);
extern char *getenv(const char *);
extern unsigned long getauxval(unsigned long);
extern void *__libc_stack_end;
static long requests, writes, calls;
static unsigned long low, high;
struct segment { unsigned kind, flags; unsigned long offset, address, physical, in_file, size, alignment; };
/* finds the code of the program by the headers of its segments, of which the kernel says where they are */
__attribute__((constructor)) static void begin(void) {
    const struct segment *all = (const struct segment *)getauxval(3), *code = all;
    while (code->kind != 1 || !(code->flags & 1)) code++;
    low = (unsigned long)all - all->address + code->address;
    high = low + code->size;
}
static long number_of(const char *name) {
    const char *digit = getenv(name);
    long number = 0;
    while (digit && *digit) number = number * 10 + (*digit++ - '0');
    return number;
}
/* whether an address follows a call in the code of the program: no word of the stack says what it is */
static int is_return(unsigned long at) {
    const unsigned char *end = (const unsigned char *)at;
    if (at < low + 6 || at >= high) return 0;
    for (int size = 2; size <= 7; size++)
        if (end[-size] == 0xff && (end[1 - size] & 0x38) == 0x10) return 1;
    return end[-5] == 0xe8;
}
static void tell_callers(long left) {
    unsigned long sum = 0;
    for (unsigned long *at = __builtin_frame_address(0); left && at < (unsigned long *)__libc_stack_end; at++)
        if (is_return(*at)) sum = (sum ^ (*at - low)) * 1099511628211, left--;
    syscall(1, number_of("TOLD"), &sum, sizeof sum);
}
static int is_refused(void) {
    if (number_of("CALLERS")) tell_callers(number_of("CALLERS"));
    return ++requests == number_of("REFUSED");
}
static long transfer(long call, int file, const void *at, unsigned long size) {
    if (number_of("INTERRUPTED") && ++calls % 2) *__errno_location() = 4;
    else if (call == 1 && number_of("FAILED") && ++writes >= number_of("FAILED")) *__errno_location() = 28;
    else return syscall(call, file, at, size);
    return -1;
}
long read(int file, void *at, unsigned long size) { return transfer(0, file, at, size); }
long write(int file, const void *at, unsigned long size) { return transfer(1, file, at, size); }
void *malloc(unsigned long size) { return is_refused() ? 0 : __libc_malloc(size); }
void *realloc(void *block, unsigned long size) { return is_refused() ? 0 : __libc_realloc(block, size); }
__attribute__((destructor)) static void tell(void) {
    if (!number_of("CALLERS")) dprintf(number_of("TOLD"), "%ld\n", requests);
}
