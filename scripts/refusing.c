/* Preloaded before a program (LD_PRELOAD), this refuses some of its calls of the C library. Variables say which:

     REFUSED  CALL HOW FIRST LAST: the calls FIRST to LAST of a kind, counted from 1 and from the begin of main. CALL is
              growth, read, write or thread, or main: a growth of the thread that begins main. HOW is fails, or short: a
              read or write of one byte; or slow: none is refused, but other threads wake late from each wait.
     SERVES   in place of REFUSED: the number of an open socket. For each text that comes there, a process of its own
              goes on to main as if REFUSED were this text, with all of the standard input in a pipe, and has a minute.
              Its wait status is sent back. So a program is loaded once for many runs
     TOLD     the number of an open file, which is told at the end how often each was called and how many were refused;
              of threads, how many there were before one was started, how many were started, how many of these were
              joined or detached, how often one waited when the program ended or called something later, and how many
              there are; and then, of each thread that the first one starts, how many growths it had made before and
              after the call

   A thread of a scope detaches itself once the scope has counted it out, and has a second for that. It needs no other
   call. What comes before main, and what the threads of a program do in turn, is counted as it comes. */
#define _GNU_SOURCE
#include <dlfcn.h>
#include <errno.h>
#include <linux/futex.h>
#include <pthread.h>
#include <stdarg.h>
#include <stdatomic.h>
#include <stdbool.h>
#include <stdio.h>
#include <stdlib.h>
#include <string.h>
#include <sys/stat.h>
#include <sys/syscall.h>
#include <sys/wait.h>
#include <unistd.h>

extern void *__libc_malloc(size_t), *__libc_calloc(size_t, size_t), *__libc_realloc(void *, size_t);
extern void *__libc_memalign(size_t, size_t);

enum call { GROWTH, READ, WRITE, THREAD, MAIN, CALLS };
static const char *const names[CALLS] = {"growth", "read", "write", "thread", "main"};
static atomic_long made[CALLS], refused;
static enum call which = CALLS;
static long first, last;
static bool counts, is_short, is_slow;
static pthread_t begins_main;
static int (*create)(pthread_t *, const pthread_attr_t *, void *(*)(void *), void *);
static int (*join)(pthread_t, void **), (*detach)(pthread_t);
static long (*call_system)(long, ...);
static int before;
static atomic_long started, let_go, waiting, late;
static atomic_bool ends;
static long around_starts[128];
static int told_of_starts;
/* (a pipe takes so much) */
static char given[1 << 16], asked[64];

static void must(bool is_so) {
    if (!is_so) call_system(SYS_exit_group, 1);
}

static size_t all_of_input(void) {
    size_t size = 0;
    for (long more; (more = call_system(SYS_read, 0, given + size, sizeof given - size)) != 0; size += more)
        must(more > 0);
    must(size < sizeof given);
    return size;
}

static void begin_run(int socket, size_t size) {
    int ends[2];
    alarm(60);
    must(pipe(ends) == 0 && call_system(SYS_write, ends[1], given, size) == (long)size);
    must(dup2(ends[0], 0) == 0);
    close(ends[0]);
    close(ends[1]);
    close(socket);
}

/* Ends with the socket. It returns in the process of each run, with the text that asks for this. */
static const char *serve(int socket) {
    size_t size = all_of_input();
    for (;;) {
        long length = call_system(SYS_read, socket, asked, sizeof asked - 1);
        if (length == 0) call_system(SYS_exit_group, 0);
        must(length > 0);
        asked[length] = 0;
        pid_t run = fork();
        if (run == 0) return begin_run(socket, size), asked;
        int status;
        must(run > 0 && waitpid(run, &status, 0) == run && dprintf(socket, "%d", status) > 0);
    }
}

static void refuse(const char *text) {
    char call[8], how[8];
    if (!text || sscanf(text, "%7s %7s %ld %ld", call, how, &first, &last) != 4) return;
    for (which = 0; which < CALLS && strcmp(call, names[which]); which++) {}
    is_short = strcmp(how, "short") == 0;
    is_slow = strcmp(how, "slow") == 0;
}

__attribute__((constructor)) static void begin(void) {
    create = dlsym(RTLD_NEXT, "pthread_create");
    join = dlsym(RTLD_NEXT, "pthread_join");
    detach = dlsym(RTLD_NEXT, "pthread_detach");
    call_system = dlsym(RTLD_NEXT, "syscall");
    begins_main = pthread_self();
    const char *serves = getenv("SERVES");
    refuse(serves ? serve(atoi(serves)) : getenv("REFUSED"));
    counts = true;
}

static bool is_first(void) { return pthread_equal(pthread_self(), begins_main); }

static bool is_refused(enum call call) {
    late += ends && !is_first();
    if (!counts) return false;
    long number = ++made[call];
    bool is = call == which && first <= number && number <= last;
    refused += is;
    return is;
}

static bool lacks_memory(void) {
    bool is = counts && is_first() && is_refused(MAIN);
    return is_refused(GROWTH) || is;
}

static void *no_memory(void) { return errno = ENOMEM, NULL; }

void *malloc(size_t size) { return lacks_memory() ? no_memory() : __libc_malloc(size); }
void *calloc(size_t n, size_t size) { return lacks_memory() ? no_memory() : __libc_calloc(n, size); }
void *realloc(void *old, size_t size) { return lacks_memory() ? no_memory() : __libc_realloc(old, size); }
void *aligned_alloc(size_t align, size_t size) { return lacks_memory() ? no_memory() : __libc_memalign(align, size); }

int posix_memalign(void **at, size_t align, size_t size) {
    return lacks_memory() || !(*at = __libc_memalign(align, size)) ? ENOMEM : 0;
}

static ssize_t moved(enum call call, int file, void *bytes, size_t count) {
    bool is = is_refused(call);
    if (is && !is_short) return errno = EIO, -1;
    return call_system(call == READ ? SYS_read : SYS_write, file, bytes, is && count > 1 ? 1 : count);
}

ssize_t read(int file, void *bytes, size_t count) { return moved(READ, file, bytes, count); }
ssize_t write(int file, const void *bytes, size_t count) { return moved(WRITE, file, (void *)bytes, count); }
ssize_t __write(int file, const void *bytes, size_t count) { return write(file, bytes, count); }

/* By this come all waits of a program but those for a thread that it joins. */
long syscall(long number, ...) {
    long with[6];
    va_list rest;
    va_start(rest, number);
    for (int at = 0; at < 6; at++) with[at] = va_arg(rest, long);
    va_end(rest);
    int what = with[1] & FUTEX_CMD_MASK;
    bool waits = number == SYS_futex && (what == FUTEX_WAIT || what == FUTEX_WAIT_BITSET) && !is_first();
    waiting += waits;
    late += waits && ends;
    long answer = call_system(number, with[0], with[1], with[2], with[3], with[4], with[5]);
    int error = errno;
    if (waits && is_slow) usleep(3000);
    waiting -= waits;
    errno = error;
    return answer;
}

static int threads(void) {
    struct stat tasks;
    /* (two of its links are those of a folder without others) */
    return stat("/proc/self/task", &tasks) ? 0 : (int)tasks.st_nlink - 2;
}

static void note_start(void) {
    if (counts && is_first() && told_of_starts < 128) around_starts[told_of_starts++] = made[MAIN];
}

int pthread_create(pthread_t *made_thread, const pthread_attr_t *how, void *(*run)(void *), void *with) {
    if (!before) before = threads();
    if (is_refused(THREAD)) return EAGAIN;
    note_start();
    int answer = create(made_thread, how, run, with);
    note_start();
    started += answer == 0;
    return answer;
}

int pthread_join(pthread_t thread, void **answer) {
    int failed = join(thread, answer);
    let_go += !failed;
    return failed;
}

int pthread_detach(pthread_t thread) {
    int failed = detach(thread);
    let_go += !failed;
    return failed;
}

void _exit(int status) {
    const char *told = getenv("TOLD");
    counts = false;
    ends = true;
    late += waiting;
    int left = threads();
    if (!before) before = left;
    for (int looks = 0; looks < 1000 && (left > 1 || let_go < started); looks++) {
        usleep(1000);
        left = threads();
    }
    if (told) {
        int file = atoi(told);
        for (enum call call = 0; call < CALLS; call++) dprintf(file, "%ld ", made[call]);
        dprintf(file, "%ld %d %ld %ld %ld %d", refused, before, started, let_go, late, left);
        for (int at = 0; at < told_of_starts; at++) dprintf(file, " %ld", around_starts[at]);
        dprintf(file, "\n");
    }
    call_system(SYS_exit_group, status);
    __builtin_unreachable();
}
