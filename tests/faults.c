/* Preloaded before a program: its reads of descriptor 0 and its writes of 1 and 2 are cut short or fail, as the environment says.
   FAULT_READS, FAULT_WRITES, FAULT_SAYS (for 0, 1, 2): one number for each call in turn, and from the first again: n > 0 passes at most
   n bytes, 0 passes the call as it is, n < 0 fails with errno -n.
   FAULT_READ_END, FAULT_WRITE_END, FAULT_SAY_END: "count,errno": once that many bytes have passed, each further call fails.
   FAULT_COUNTS: a file of three longs, the calls altered on each, so that a test can see that its faults took place. */
#define _GNU_SOURCE
#include <dlfcn.h>
#include <errno.h>
#include <fcntl.h>
#include <stdlib.h>
#include <sys/mman.h>
#include <unistd.h>

struct direction {
    const char *steps, *next;
    long left;
    int error;
    long *altered;
};

static struct direction of[3]; /* by descriptor */
static ssize_t (*true_read)(int, void *, size_t);
static ssize_t (*true_write)(int, const void *, size_t);

static void set(struct direction *d, const char *steps, const char *end, long *altered) {
    char *rest;
    d->steps = d->next = getenv(steps);
    d->altered = altered;
    if (getenv(end)) {
        d->left = strtol(getenv(end), &rest, 10);
        d->error = atoi(rest + 1);
    }
}

__attribute__((constructor)) static void start(void) {
    static long none[3];
    const char *path = getenv("FAULT_COUNTS");
    int file = path ? open(path, O_RDWR | O_CLOEXEC) : -1;
    long *counts = file < 0 ? MAP_FAILED : mmap(0, sizeof none, PROT_READ | PROT_WRITE, MAP_SHARED, file, 0);
    if (file >= 0) close(file);
    if (counts == MAP_FAILED) counts = none;
    true_read = dlsym(RTLD_NEXT, "read");
    true_write = dlsym(RTLD_NEXT, "write");
    set(&of[0], "FAULT_READS", "FAULT_READ_END", &counts[0]);
    set(&of[1], "FAULT_WRITES", "FAULT_WRITE_END", &counts[1]);
    set(&of[2], "FAULT_SAYS", "FAULT_SAY_END", &counts[2]);
}

static long step(struct direction *d) {
    char *rest;
    if (!d->steps || !*d->steps) return 0;
    long n = strtol(d->next, &rest, 10);
    d->next = *rest ? rest + 1 : d->steps;
    return n;
}

static int fails(struct direction *d, int error) {
    ++*d->altered;
    errno = error;
    return 1;
}

/* Whether the call fails; otherwise *count is what it may move. */
static int alter(struct direction *d, size_t *count) {
    long n = step(d);
    if (n < 0) return fails(d, (int)-n);
    if (d->error && d->left == 0) return fails(d, d->error);
    if (n > 0 && *count > (size_t)n) {
        *count = (size_t)n;
        ++*d->altered;
    }
    if (d->error && *count > (size_t)d->left) *count = (size_t)d->left;
    return 0;
}

static ssize_t passed(struct direction *d, ssize_t moved) {
    if (d->error && moved > 0) d->left -= moved;
    return moved;
}

ssize_t read(int descriptor, void *bytes, size_t count) {
    if (descriptor != 0) return true_read(descriptor, bytes, count);
    return alter(&of[0], &count) ? -1 : passed(&of[0], true_read(0, bytes, count));
}

ssize_t write(int descriptor, const void *bytes, size_t count) {
    if (descriptor != 1 && descriptor != 2) return true_write(descriptor, bytes, count);
    return alter(&of[descriptor], &count) ? -1 : passed(&of[descriptor], true_write(descriptor, bytes, count));
}
