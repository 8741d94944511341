// Writes each of its arguments on a line of its own, numbered from 0, and exits with their count.
// Text, constants and data lie in segments of their own, with the rights that each needs.
typedef unsigned long word;

static long call(long number, long a0, long a1, long a2) {
    register long x0 asm("a0") = a0;
    register long x1 asm("a1") = a1;
    register long x2 asm("a2") = a2;
    register long x7 asm("a7") = number;
    asm volatile("ecall" : "+r"(x0) : "r"(x1), "r"(x2), "r"(x7) : "memory");
    return x0;
}

static word length(const char *text) {
    word n = 0;
    while (text[n] != 0)
        n++;
    return n;
}

static void write_out(const char *bytes, word n) {
    call(64, 1, (long)bytes, (long)n);
}

static const char separator[] = ": ";
static char number[] = "00";

// Counts the number's two digits up.
static void count_up(void) {
    if (++number[1] > '9') {
        number[1] = '0';
        number[0]++;
    }
}

// Where the stack begins there are the count of the arguments, a pointer to each, and a zero word.
__attribute__((used)) static long run(word *stack) {
    word count = stack[0];
    char **arguments = (char **)(stack + 1);
    for (word i = 0; i < count; i++) {
        write_out(number, 2);
        write_out(separator, 2);
        write_out(arguments[i], length(arguments[i]));
        write_out("\n", 1);
        count_up();
    }
    return (long)count;
}

__attribute__((naked, noreturn)) void _start(void) {
    asm("mv a0, sp\n"
        "call run\n"
        "li a7, 93\n"
        "ecall\n");
}
