// An allocator for LD_PRELOAD that refuses some calls: `try-memory` builds it, and runs the program under it again and again.
//
// The program is started once for a list of runs. Before its `main` it reads `struct plan` and then so many `struct run` from the file
// of number FAIL_ORDERS, and makes each run in a process of its own: a copy of it as it stands before `main`, or, where the plan walks,
// as it stands at the first call that is refused. So a walk makes what comes before that call once for all runs; their calls have to
// ascend, and the program must not have begun a thread. Of each run a `struct told` goes to the file of number FAIL_ANSWERS. Where its
// end is one that this start has not told yet, the next run waits for a byte of FAIL_ORDERS; till then its text stands in the program's
// standard output, a file, and what went to standard error in another.
//
// Only calls behind the start of `main` count, from 1, those of the C library too: by threads, say. What the loader does before is not
// the program's.
#define _GNU_SOURCE
#include <errno.h>
#include <signal.h>
#include <stdatomic.h>
#include <stddef.h>
#include <stdint.h>
#include <stdlib.h>
#include <string.h>
#include <sys/mman.h>
#include <sys/single_threaded.h>
#include <sys/stat.h>
#include <sys/time.h>
#include <sys/wait.h>
#include <unistd.h>

extern void *__libc_malloc(size_t);
extern void *__libc_calloc(size_t, size_t);
extern void *__libc_realloc(void *, size_t);
extern void *__libc_memalign(size_t, size_t);

enum { BROKEN = 97 };

struct plan {
    uint64_t runs, walks, seconds;
};

// The number of the first call that is refused, 0 for none, and how many are, 0 for all from there on.
struct run {
    uint64_t first, many;
};

// How a run ended, by `waitpid`; how many calls it made, and how many of them were refused; how long its text is, and what went to
// standard error; two sums of both; and whether there was such an end before.
struct told {
    uint64_t status, calls, refused, text, error, sums[2], is_new;
};

static _Atomic uint64_t *counts;
static struct run now;
static int is_counting, is_walking, orders, answers;

static struct plan plan;
static struct run *runs;
static uint64_t *seen, places, next;

static void *room(size_t size)
{
    void *made = mmap(NULL, size, PROT_READ | PROT_WRITE, MAP_SHARED | MAP_ANONYMOUS, -1, 0);
    if (made == MAP_FAILED)
        _exit(BROKEN);
    return made;
}

static void take(void *into, size_t size)
{
    for (size_t done = 0; done < size;) {
        ssize_t some = read(orders, (char *)into + done, size - done);
        if (some <= 0)
            _exit(BROKEN);
        done += (size_t)some;
    }
}

static void give(const void *from, size_t size)
{
    for (size_t done = 0; done < size;) {
        ssize_t some = write(answers, (const char *)from + done, size - done);
        if (some <= 0)
            _exit(BROKEN);
        done += (size_t)some;
    }
}

// Adds bytes to two sums.
static void add(uint64_t sums[2], const void *bytes, size_t size)
{
    const unsigned char *at = bytes;
    for (size_t done = 0; done < size; done += 8) {
        uint64_t word = 0;
        memcpy(&word, at + done, size - done < 8 ? size - done : 8);
        sums[0] = (sums[0] ^ word) * 0x9E3779B97F4A7C15u;
        sums[0] ^= sums[0] >> 29;
        sums[1] = (sums[1] + word) * 0xC2B2AE3D27D4EB4Fu;
        sums[1] ^= sums[1] >> 32;
    }
    sums[0] += size;
}

// Adds what a file has to two sums. Answers how much that is.
static uint64_t add_file(uint64_t sums[2], int file)
{
    struct stat told;
    if (fstat(file, &told) != 0)
        _exit(BROKEN);
    size_t size = (size_t)told.st_size;
    if (size > 0) {
        void *bytes = mmap(NULL, size, PROT_READ, MAP_SHARED, file, 0);
        if (bytes == MAP_FAILED)
            _exit(BROKEN);
        add(sums, bytes, size);
        munmap(bytes, size);
    }
    return size;
}

// Leaves just so much in a file.
static void cut(int file, off_t size)
{
    if (ftruncate(file, size) != 0 || lseek(file, size, SEEK_SET) != size)
        _exit(BROKEN);
}

// Whether there was no such end before; from now on there is.
static int is_new(const uint64_t sums[2])
{
    uint64_t at = sums[1] % places;
    while (seen[2 * at] != 0 || seen[2 * at + 1] != 0) {
        if (seen[2 * at] == sums[0] && seen[2 * at + 1] == sums[1])
            return 0;
        at = (at + 1) % places;
    }
    seen[2 * at] = sums[0];
    seen[2 * at + 1] = sums[1];
    return 1;
}

// Tells how a run ended.
static void tell(int status)
{
    struct told told = {.status = (uint64_t)status, .calls = counts[0], .refused = counts[1]};
    uint64_t kind[2] = {(uint64_t)status, told.refused > 0};
    told.sums[0] = told.sums[1] = 1;
    add(told.sums, kind, sizeof kind);
    told.text = add_file(told.sums, 1);
    told.error = add_file(told.sums, 2);
    told.is_new = (uint64_t)is_new(told.sums);
    give(&told, sizeof told);
    if (told.is_new) {
        char go;
        take(&go, 1);
    }
}

// Makes the next run in a copy of this process. Answers 1 in the copy, and 0 behind its end.
static int make(uint64_t calls)
{
    now = runs[next];
    counts[0] = calls;
    counts[1] = 0;
    off_t written[2] = {lseek(1, 0, SEEK_CUR), lseek(2, 0, SEEK_CUR)};
    pid_t copy = fork();
    if (copy < 0)
        _exit(BROKEN);
    if (copy == 0) {
        struct itimerval limit = {.it_value = {.tv_sec = (time_t)plan.seconds}};
        setitimer(ITIMER_REAL, &limit, NULL);
        close(orders);
        close(answers);
        is_walking = 0;
        return 1;
    }
    int status;
    while (waitpid(copy, &status, 0) != copy)
        if (errno != EINTR)
            _exit(BROKEN);
    tell(status);
    cut(1, written[0]);
    cut(2, written[1]);
    next++;
    return 0;
}

static int file_of(const char *name)
{
    const char *number = getenv(name);
    if (number == NULL)
        _exit(BROKEN);
    return atoi(number);
}

__attribute__((constructor)) static void begin(void)
{
    orders = file_of("FAIL_ORDERS");
    answers = file_of("FAIL_ANSWERS");
    take(&plan, sizeof plan);
    size_t size = plan.runs * sizeof *runs;
    runs = room(size + 1);
    take(runs, size);
    places = 2 * plan.runs + 1;
    seen = room(places * 2 * sizeof *seen);
    counts = room(2 * sizeof *counts);
    if (plan.walks) {
        is_walking = is_counting = 1;
        return;
    }
    while (next < plan.runs)
        if (make(0)) {
            is_counting = 1;
            return;
        }
    _exit(0);
}

// The walk is through: what is left of its list asks calls that there are none of.
__attribute__((destructor)) static void end(void)
{
    if (is_walking)
        _exit(next < plan.runs ? BROKEN : 0);
}

// Whether this call of a walk is one at which a run begins; then that run goes on from here, in a copy of this process.
static int begins_run(uint64_t call)
{
    if (!__libc_single_threaded)
        _exit(BROKEN);
    while (next < plan.runs && runs[next].first == call)
        if (make(call))
            return 1;
    if (next == plan.runs)
        _exit(0);
    return 0;
}

// Whether this call is one of those that are refused.
static int is_refused(void)
{
    static uint64_t walked;
    if (!is_counting)
        return 0;
    if (is_walking) {
        if (!begins_run(++walked))
            return 0;
    } else {
        uint64_t call = atomic_fetch_add(&counts[0], 1) + 1;
        if (now.first == 0 || call < now.first || (now.many != 0 && call >= now.first + now.many))
            return 0;
    }
    atomic_fetch_add(&counts[1], 1);
    errno = ENOMEM;
    return 1;
}

void *malloc(size_t size)
{
    return is_refused() ? NULL : __libc_malloc(size);
}

void *calloc(size_t count, size_t size)
{
    return is_refused() ? NULL : __libc_calloc(count, size);
}

void *realloc(void *block, size_t size)
{
    return is_refused() ? NULL : __libc_realloc(block, size);
}

void *memalign(size_t align, size_t size)
{
    return is_refused() ? NULL : __libc_memalign(align, size);
}

void *aligned_alloc(size_t align, size_t size)
{
    return is_refused() ? NULL : __libc_memalign(align, size);
}

int posix_memalign(void **block, size_t align, size_t size)
{
    if (is_refused())
        return ENOMEM;
    void *made = __libc_memalign(align, size);
    if (made == NULL)
        return ENOMEM;
    *block = made;
    return 0;
}
