// Makes one request by the function that its only word names. The status is 0 where it is served, 1 where it is refused, and 70 where there
// is no such function. It shows that refuse.c has each of them.
#include <pthread.h>
#include <stdlib.h>
#include <string.h>
#include <sys/uio.h>
#include <unistd.h>

static char bytes[1];
static const struct iovec part = {bytes, 1};

static void *nothing(void *with) { return with; }

static int is_served(const char *by) {
    // (the compiler leaves no call out whose answer stands in the one, and makes no malloc of a realloc of the other)
    static void *volatile block, *volatile none;
    void *aligned;
    pthread_t thread;
    if (!strcmp(by, "malloc")) return (block = malloc(100)) != NULL;
    if (!strcmp(by, "calloc")) return (block = calloc(10, 10)) != NULL;
    if (!strcmp(by, "realloc")) return (block = realloc(none, 100)) != NULL;
    if (!strcmp(by, "aligned_alloc")) return (block = aligned_alloc(64, 128)) != NULL;
    if (!strcmp(by, "posix_memalign")) return posix_memalign(&aligned, 64, 128) == 0;
    if (!strcmp(by, "pthread_create")) return pthread_create(&thread, NULL, nothing, NULL) == 0 && pthread_join(thread, NULL) == 0;
    if (!strcmp(by, "read")) return read(0, bytes, 1) >= 0;
    if (!strcmp(by, "readv")) return readv(0, &part, 1) >= 0;
    if (!strcmp(by, "write 1")) return write(1, bytes, 1) == 1;
    if (!strcmp(by, "writev 1")) return writev(1, &part, 1) == 1;
    if (!strcmp(by, "write 2")) return write(2, bytes, 1) == 1;
    if (!strcmp(by, "writev 2")) return writev(2, &part, 1) == 1;
    exit(70);
}

int main(int count, char **words) { return count == 2 ? !is_served(words[1]) : 70; }
