/* A heap that refuses one request for memory, in place of the toolchain's own.
 *
 * A request is a new block, or a larger size for a block; a block that gives back what it does not use asks for nothing.
 * REFUSED_REQUEST in the environment is the number of the one that is refused, counted from 1; without it none is. A refusal
 * leaves a line in the program's output, where it stands between the lines of the program, which are written without a buffer. A
 * last line says where not every block was freed.
 *
 * The toolchain's clang compiles this. It has no headers, so what is used of the C library is declared here.
 */
typedef __SIZE_TYPE__ size_t;

void *malloc(size_t size);
void *realloc(void *block, size_t size);
void free(void *block);
_Noreturn void abort(void);
char *getenv(const char *name);
unsigned long strtoul(const char *text, char **end, int base);
size_t strlen(const char *text);
long write(int file, const void *bytes, size_t length);

/* The toolchain's answer to a request: whether there is a block, and the block. */
struct tried {
    _Bool ok;
    void *block;
};

static const struct tried none = {0, 0};

static unsigned long requests;
static unsigned long refused_request;
static unsigned long blocks;

static void print(const char *line)
{
    size_t length = strlen(line);
    if (write(1, line, length) != (long)length)
        abort();
}

__attribute__((constructor)) static void begin(void)
{
    const char *number = getenv("REFUSED_REQUEST");
    if (number)
        refused_request = strtoul(number, 0, 10);
}

__attribute__((destructor)) static void end(void)
{
    if (blocks)
        print("not all freed\n");
}

static _Bool is_refused(void)
{
    requests += 1;
    if (requests != refused_request)
        return 0;
    print("refused\n");
    return 1;
}

/* A new block. Where its size is 0 it is only a place, and gets as many bytes as it is aligned to. */
struct tried rattle_alloc(size_t size, size_t align)
{
    if (is_refused())
        return none;
    void *block = malloc(size ? size : align);
    if (!block)
        return none;
    blocks += 1;
    return (struct tried){1, block};
}

/* The block with another size, of which its first `kept` bytes stay. */
struct tried rattle_realloc(void *block, size_t kept, size_t size, size_t align)
{
    if (size > kept && is_refused())
        return none;
    void *moved = realloc(block, size ? size : align);
    if (!moved)
        return none;
    return (struct tried){1, moved};
}

void rattle_dealloc(void *block)
{
    blocks -= 1;
    free(block);
}
