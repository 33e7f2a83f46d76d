/* Preloaded into a program, stands between it and the system, as the environment asks:
 *
 *   SHORT=N                  a read of standard input and a write of standard output move at most N bytes
 *   FAIL_READ=K ERRNO=E      the read of that number, from 1, fails with that error; so FAIL_WRITE for writes, where with
 *                            the error 0 the call moves nothing
 *   INTERRUPT_READS=N        the first N reads are interrupted; so INTERRUPT_WRITES for writes
 *   REFUSE_THREAD=K          the thread of that number, from 1, isn't started
 *   JITTER=SEED              a thread rests now and then at its calls for a lock or a wait
 *   HOLD_THREAD=K HOLD_FOR=M the thread of that number, from 1, waits first, alone: the others begin only then. Once it is
 *                            woken it rests until all others have ended, or M milliseconds
 *   COUNT=FILE               at the end the file gets the numbers of reads, writes, threads, rests and threads held
 */
#define _GNU_SOURCE
#include <dlfcn.h>
#include <errno.h>
#include <linux/futex.h>
#include <pthread.h>
#include <stdarg.h>
#include <stdio.h>
#include <stdlib.h>
#include <sys/syscall.h>
#include <sys/uio.h>
#include <time.h>
#include <unistd.h>

static unsigned long reads, writes, threads, rests, holds;
/* Whether the held thread has begun to wait, and how many threads have ended. */
static unsigned long waits, ended;
/* Whether this thread is the one to be held. */
static __thread int is_held;

/* The system's own call, past what stands here. */
static long call(long number, long a, long b, long c, long d, long e, long f) {
    long answer;
    register long fourth __asm__("r10") = d;
    register long fifth __asm__("r8") = e;
    register long sixth __asm__("r9") = f;
    __asm__ volatile("syscall"
                     : "=a"(answer)
                     : "a"(number), "D"(a), "S"(b), "d"(c), "r"(fourth), "r"(fifth), "r"(sixth)
                     : "rcx", "r11", "memory");
    if (answer > -4096 && answer < 0) {
        errno = (int)-answer;
        return -1;
    }
    return answer;
}

/* A number of the environment, or 0. */
static unsigned long asked(const char *name) {
    const char *text = getenv(name);
    return text ? strtoul(text, NULL, 10) : 0;
}

static unsigned long next_of(unsigned long *count) { return __atomic_add_fetch(count, 1, __ATOMIC_RELAXED); }

/* How many bytes are moved where so many are asked for. */
static size_t cut(size_t size) {
    unsigned long most = asked("SHORT");
    return most && most < size ? most : size;
}

static int fails(unsigned long *count, const char *name, const char *interrupted) {
    unsigned long number = next_of(count);
    int is_interrupted = number <= asked(interrupted);
    if (number != asked(name) && !is_interrupted) return 0;
    errno = is_interrupted ? EINTR : (int)asked("ERRNO");
    return 1;
}

ssize_t read(int file, void *to, size_t size) {
    if (file != STDIN_FILENO) return call(SYS_read, file, (long)to, size, 0, 0, 0);
    if (fails(&reads, "FAIL_READ", "INTERRUPT_READS")) return -1;
    return call(SYS_read, file, (long)to, cut(size), 0, 0, 0);
}

ssize_t write(int file, const void *from, size_t size) {
    if (file != STDOUT_FILENO) return call(SYS_write, file, (long)from, size, 0, 0, 0);
    if (fails(&writes, "FAIL_WRITE", "INTERRUPT_WRITES")) return errno ? -1 : 0;
    return call(SYS_write, file, (long)from, cut(size), 0, 0, 0);
}

/* The first part that has bytes is as much as a short call may move. */
ssize_t readv(int file, const struct iovec *parts, int count) {
    if (file != STDIN_FILENO) return call(SYS_readv, file, (long)parts, count, 0, 0, 0);
    while (count > 1 && parts->iov_len == 0) parts++, count--;
    return count ? read(file, parts->iov_base, parts->iov_len) : 0;
}

ssize_t writev(int file, const struct iovec *parts, int count) {
    if (file != STDOUT_FILENO) return call(SYS_writev, file, (long)parts, count, 0, 0, 0);
    while (count > 1 && parts->iov_len == 0) parts++, count--;
    return count ? write(file, parts->iov_base, parts->iov_len) : 0;
}

static unsigned long now_of(unsigned long *count) { return __atomic_load_n(count, __ATOMIC_SEQ_CST); }

static void pause_for(long nanoseconds) {
    struct timespec pause = {0, nanoseconds};
    call(SYS_nanosleep, (long)&pause, 0, 0, 0, 0, 0);
}

struct begun {
    void *(*start)(void *);
    void *with;
    int is_held;
};

/* How each thread begins if one is to be held: the others once that one waits, or after ten seconds. */
static void *begin(void *given) {
    struct begun begun = *(struct begun *)given;
    free(given);
    is_held = begun.is_held;
    for (int tries = 0; !is_held && !now_of(&waits) && tries < 10000; tries++) pause_for(1000000);
    void *answer = begun.start(begun.with);
    next_of(&ended);
    return answer;
}

int pthread_create(pthread_t *thread, const pthread_attr_t *how, void *(*start)(void *), void *with) {
    static int (*real)(pthread_t *, const pthread_attr_t *, void *(*)(void *), void *);
    if (!real) *(void **)&real = dlsym(RTLD_NEXT, "pthread_create");
    unsigned long number = next_of(&threads);
    if (number == asked("REFUSE_THREAD")) return EAGAIN;
    if (!asked("HOLD_THREAD")) return real(thread, how, start, with);
    struct begun *begun = malloc(sizeof *begun);
    if (!begun) return EAGAIN;
    *begun = (struct begun){start, with, number == asked("HOLD_THREAD")};
    return real(thread, how, begin, begun);
}

/* The held thread was woken for the first time. */
static void hold(void) {
    is_held = 0;
    next_of(&holds);
    for (unsigned long left = asked("HOLD_FOR"); left && now_of(&ended) + 1 < now_of(&threads); left--) pause_for(1000000);
}

/* Rests for up to 100 microseconds at every fourth call or so. */
static void rest(void) {
    static unsigned long calls;
    unsigned long seed = asked("JITTER");
    if (!seed) return;
    unsigned long mixed = (next_of(&calls) + seed) * 0x9E3779B97F4A7C15ul;
    if (mixed >> 62) return;
    next_of(&rests);
    pause_for((long)(mixed >> 32) % 100000);
}

#define RESTS(name)                                                                   \
    int name(pthread_mutex_t *lock) {                                                 \
        static int (*real)(pthread_mutex_t *);                                        \
        if (!real) *(void **)&real = dlsym(RTLD_NEXT, #name);                         \
        rest();                                                                       \
        return real(lock);                                                            \
    }
RESTS(pthread_mutex_lock)
RESTS(pthread_mutex_unlock)

int sched_yield(void) {
    rest();
    return (int)call(SYS_sched_yield, 0, 0, 0, 0, 0, 0);
}

/* How a lock waits that isn't the C library's. */
long syscall(long number, ...) {
    va_list rest_of;
    long with[6];
    va_start(rest_of, number);
    for (int at = 0; at < 6; at++) with[at] = va_arg(rest_of, long);
    va_end(rest_of);
    if (number == SYS_futex) rest();
    int command = (int)with[1] & FUTEX_CMD_MASK;
    int is_first_wait = is_held && number == SYS_futex && (command == FUTEX_WAIT || command == FUTEX_WAIT_BITSET);
    if (is_first_wait) next_of(&waits);
    long answer = call(number, with[0], with[1], with[2], with[3], with[4], with[5]);
    int error = errno;
    if (is_first_wait) hold();
    errno = error;
    return answer;
}

__attribute__((destructor)) static void tell(void) {
    const char *name = getenv("COUNT");
    FILE *file = name ? fopen(name, "w") : NULL;
    if (file) {
        fprintf(file, "%lu %lu %lu %lu %lu\n", reads, writes, threads, rests, holds);
        fclose(file);
    }
}

/* A program with threads ends so, without its destructors. */
void _exit(int status) {
    tell();
    call(SYS_exit_group, status, 0, 0, 0, 0, 0);
    __builtin_unreachable();
}
