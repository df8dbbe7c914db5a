/* What a program that is built with checks does where one of them fails. A failed check is an instruction that the processor refuses: the
   program then says so in one line and ends with a status of its own. */

#define SIGILL 4
#define SIGFPE 8
#define STATUS 125

extern void (*signal(int, void (*)(int)))(int);
extern long write(int, const void *, unsigned long);
extern void _exit(int) __attribute__((noreturn));

static const char line[] = "pdp8: a check failed: this is a fault of pdp8 itself; please report it, with the command and its files\n";

static void fail(int number) {
    (void)number;
    if (write(2, line, sizeof line - 1) < 0) {
        /* nothing can be printed */
    }
    _exit(STATUS);
}

__attribute__((constructor)) static void begin(void) {
    signal(SIGILL, fail);
    signal(SIGFPE, fail);
}
