/* Loaded in front of the C library, refuses memory to a program: the allocation whose number, counted from 1, is
   REFUSE, and where REFUSE_ON is set each one after it too. With the first that it refuses it makes the file
   REFUSE_MARK. */
#include <errno.h>
#include <fcntl.h>
#include <stdlib.h>
#include <unistd.h>

void *__libc_malloc(size_t size);
void *__libc_calloc(size_t count, size_t size);
void *__libc_realloc(void *block, size_t size);

static long number;
static long refused;
static int goes_on;
static const char *mark;

__attribute__((constructor)) static void read_environment(void) {
    const char *text = getenv("REFUSE");
    refused = text ? atol(text) : 0;
    goes_on = getenv("REFUSE_ON") != NULL;
    mark = getenv("REFUSE_MARK");
    number = 0;
}

/* Whether the allocation that is asked for now is refused. */
static int is_refused(void) {
    number++;
    if (refused == 0 || number < refused || (number > refused && !goes_on))
        return 0;
    if (number == refused && mark)
        close(open(mark, O_WRONLY | O_CREAT, 0600));
    errno = ENOMEM;
    return 1;
}

void *malloc(size_t size) { return is_refused() ? NULL : __libc_malloc(size); }

void *calloc(size_t count, size_t size) { return is_refused() ? NULL : __libc_calloc(count, size); }

void *realloc(void *block, size_t size) { return is_refused() ? NULL : __libc_realloc(block, size); }
