/* Refuses a program one call for memory. tests/refusing.py builds it as a library that is loaded before all others (LD_PRELOAD).
 *
 * It stands in the place of malloc, calloc, realloc, aligned_alloc, memalign and posix_memalign. Their calls are counted together,
 * in the whole process, from the moment that the library is loaded. The call of the number REFUSED_CALL gets no memory: it answers
 * NULL with ENOMEM in errno, and posix_memalign answers ENOMEM. The name of the function is then written, with a line end, to the
 * file descriptor REFUSED_NOTE. All other calls are those of the C library. Both numbers come from the environment. Where the first
 * is missing, or 0, no call is refused; as the process ends the number of its calls is written instead of a name.
 *
 * Nothing here asks for memory, and nothing is looked up, which might: the GNU C library has each of its functions by a second
 * name, which this library leaves alone.
 */
#include <errno.h>
#include <malloc.h>
#include <stdlib.h>
#include <string.h>
#include <unistd.h>

void *__libc_malloc(size_t size);
void *__libc_calloc(size_t count, size_t size);
void *__libc_realloc(void *block, size_t size);
void *__libc_memalign(size_t alignment, size_t size);

static unsigned long refused_call;
static int note;
static unsigned long calls;

static unsigned long number_of(const char *name)
{
    const char *text = getenv(name);
    return text ? strtoul(text, NULL, 10) : 0;
}

__attribute__((constructor)) static void begin(void)
{
    note = (int)number_of("REFUSED_NOTE");
    refused_call = number_of("REFUSED_CALL");
    calls = 0;
}

/* Writes a line of the note. */
static void tell(const char *text)
{
    if (write(note, text, strlen(text)) < 0 || write(note, "\n", 1) < 0)
        abort(); /* the script would take it that no call was refused */
}

/* Writes how many calls there were. */
__attribute__((destructor)) static void end(void)
{
    char text[24];
    char *first = text + sizeof text - 1;
    unsigned long rest = calls;

    if (refused_call != 0 || note == 0)
        return;
    *first = '\0';
    do {
        *--first = (char)('0' + rest % 10);
        rest /= 10;
    } while (rest > 0);
    tell(first);
}

/* Counts a call; whether it is the one that gets no memory. */
static int is_refused(const char *function)
{
    if (__atomic_add_fetch(&calls, 1, __ATOMIC_RELAXED) != refused_call)
        return 0;
    tell(function);
    errno = ENOMEM;
    return 1;
}

void *malloc(size_t size)
{
    return is_refused("malloc") ? NULL : __libc_malloc(size);
}

void *calloc(size_t count, size_t size)
{
    return is_refused("calloc") ? NULL : __libc_calloc(count, size);
}

void *realloc(void *block, size_t size)
{
    return is_refused("realloc") ? NULL : __libc_realloc(block, size);
}

void *memalign(size_t alignment, size_t size)
{
    return is_refused("memalign") ? NULL : __libc_memalign(alignment, size);
}

void *aligned_alloc(size_t alignment, size_t size)
{
    return is_refused("aligned_alloc") ? NULL : __libc_memalign(alignment, size);
}

/* This one has no second name; it leaves errno alone. */
int posix_memalign(void **block, size_t alignment, size_t size)
{
    int kept = errno;
    int fault = 0;

    if (is_refused("posix_memalign")) {
        fault = ENOMEM;
    } else if (alignment % sizeof(void *) != 0 || alignment == 0 || (alignment & (alignment - 1)) != 0) {
        fault = EINVAL;
    } else {
        void *made = __libc_memalign(alignment, size);
        if (made == NULL)
            fault = ENOMEM;
        else
            *block = made;
    }
    errno = kept;
    return fault;
}
