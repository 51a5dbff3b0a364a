// Refuses one of a program's requests for memory. It stands between the program and the C library, counts the requests from the
// start of the process on, and refuses the one whose number REFUSED_REQUEST gives. In the end it writes on descriptor 3 how many
// requests there were.
//
//     clang -O2 -shared -fPIC -nostdlib -o refuse_request.so refuse_request.c
//     REFUSED_REQUEST=7 LD_PRELOAD=./refuse_request.so PROGRAM 3>requests
//
// A program of Rattle asks with malloc and realloc alone. There are no headers, so that the kit's compiler is enough.

typedef unsigned long size_t;

void *__libc_malloc(size_t size);
void *__libc_realloc(void *block, size_t size);
char *getenv(const char *name);
long strtol(const char *text, char **end, int radix);
long write(int descriptor, const void *bytes, size_t count);

static long requests;

static int is_refused(void)
{
    static long refused = -1;
    if (refused < 0) {
        const char *number = getenv("REFUSED_REQUEST");
        refused = number ? strtol(number, 0, 10) : 0;
    }
    return ++requests == refused;
}

void *malloc(size_t size)
{
    return is_refused() ? 0 : __libc_malloc(size);
}

void *realloc(void *block, size_t size)
{
    return is_refused() ? 0 : __libc_realloc(block, size);
}

__attribute__((destructor)) static void report(void)
{
    char text[24];
    int at = sizeof text;
    long rest = requests;
    text[--at] = '\n';
    do {
        text[--at] = '0' + rest % 10;
        rest /= 10;
    } while (rest);
    write(3, text + at, sizeof text - at);
}
