/* A library that is loaded before the C library (LD_PRELOAD) and refuses allocations of its process, as a host without memory does.

   REFUSE=N           the N-th call of malloc, calloc, realloc, posix_memalign or aligned_alloc returns nothing
   REFUSE=N+          the N-th and all later ones
   REFUSE_REPORT=PATH this file gets a line when the first call is refused, `refused early` if the process had opened no file but
                      /dev/null before, else `refused`, and a line `calls N` when the process ends

   Calls are counted from the start of this library on. It needs no header and no library to be compiled. */

typedef unsigned long size;

extern void *__libc_malloc(size bytes);
extern void *__libc_calloc(size count, size bytes);
extern void *__libc_realloc(void *old, size bytes);
extern void *__libc_memalign(size alignment, size bytes);
extern int *__errno_location(void);
extern char *getenv(const char *name);
extern int openat(int folder, const char *path, int flags, ...);
extern long write(int file, const void *bytes, size count);
extern int close(int file);

#define NO_MEMORY 12
#define HERE (-100)
#define APPEND 02001 /* to write, after what is there */
#define CREATE 0100
#define PRIVATE 0600

static unsigned long calls, refused;
static int refuses_later, has_refused, has_opened;
static const char *path_of_report;

static void report(const char *text, size length)
{
    int file = path_of_report ? openat(HERE, path_of_report, APPEND | CREATE, PRIVATE) : -1;
    if (file >= 0) {
        (void)!write(file, text, length);
        close(file);
    }
}

__attribute__((constructor)) static void begin(void)
{
    const char *word = getenv("REFUSE");
    for (; word && *word >= '0' && *word <= '9'; word++)
        refused = 10 * refused + (unsigned long)(*word - '0');
    refuses_later = word && *word == '+';
    path_of_report = getenv("REFUSE_REPORT");
    calls = 0;
}

__attribute__((destructor)) static void end(void)
{
    char text[32] = "calls ";
    char digits[24];
    int count = 0, length = 6;
    do
        digits[count++] = (char)('0' + calls % 10);
    while (calls /= 10);
    while (count)
        text[length++] = digits[--count];
    text[length++] = '\n';
    report(text, (size)length);
}

/* Whether this call is refused. */
static int is_refused(void)
{
    calls++;
    if (!refused || calls < refused || (calls > refused && !refuses_later))
        return 0;
    if (!has_refused && has_opened)
        report("refused\n", 8);
    else if (!has_refused)
        report("refused early\n", 14);
    has_refused = 1;
    *__errno_location() = NO_MEMORY;
    return 1;
}

void *malloc(size bytes)
{
    return is_refused() ? 0 : __libc_malloc(bytes);
}

void *calloc(size count, size bytes)
{
    return is_refused() ? 0 : __libc_calloc(count, bytes);
}

void *realloc(void *old, size bytes)
{
    return is_refused() ? 0 : __libc_realloc(old, bytes);
}

void *aligned_alloc(size alignment, size bytes)
{
    return is_refused() ? 0 : __libc_memalign(alignment, bytes);
}

int posix_memalign(void **place, size alignment, size bytes)
{
    void *found = is_refused() ? 0 : __libc_memalign(alignment, bytes);
    if (found)
        *place = found;
    return found ? 0 : NO_MEMORY;
}

static int is_null_device(const char *path)
{
    const char *name = "/dev/null";
    while (*name && *name == *path)
        name++, path++;
    return !*name && !*path;
}

int open(const char *path, int flags, ...)
{
    __builtin_va_list rest;
    __builtin_va_start(rest, flags);
    unsigned mode = __builtin_va_arg(rest, unsigned);
    __builtin_va_end(rest);
    has_opened = has_opened || !is_null_device(path);
    return openat(HERE, path, flags, mode);
}
