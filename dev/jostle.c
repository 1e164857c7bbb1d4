/* Makes the threads of a program race, also where they would not by themselves because each is done before the next one is
 * there: for dev/stress, which loads it before the C library.
 *
 * JOSTLE_THREADS says how many threads the program makes. Whoever makes one waits until all of them are there, and so does
 * the last of them; then all go on at the same moment. From then on a timer of its own interrupts each thread again and
 * again after a few microseconds, and the thread then sleeps for a while, or not. JOSTLE_SEED is the seed of the random
 * numbers.
 */
#define _GNU_SOURCE
#include <dlfcn.h>
#include <pthread.h>
#include <sched.h>
#include <signal.h>
#include <stdint.h>
#include <stdlib.h>
#include <string.h>
#include <sys/prctl.h>
#include <sys/syscall.h>
#include <time.h>
#include <unistd.h>

#ifndef sigev_notify_thread_id
#define sigev_notify_thread_id _sigev_un._tid
#endif

/* microseconds: the longest wait for threads that do not come, and how long after the last one all go on */
enum { PATIENCE = 20000, START = 100 };

static uint64_t seeds, expected, made, go;
static __thread uint64_t state;
static __thread timer_t timer;

static uint64_t now(void) {
    struct timespec time;
    clock_gettime(CLOCK_MONOTONIC, &time);
    return (uint64_t)time.tv_sec * 1000000 + (uint64_t)time.tv_nsec / 1000;
}

static uint64_t next(void) {
    state ^= state << 13, state ^= state >> 7, state ^= state << 17;
    return state;
}

/* Sets the calling thread's timer, once. */
static void wind_up(void) {
    struct itimerspec when = {{0, 0}, {0, 1000 + (long)(next() % 7000)}};
    timer_settime(timer, 0, &when, NULL);
}

static void rest(int number) {
    (void)number;
    struct timespec rest = {0, (long)(next() % 400000)};
    if (next() % 4) nanosleep(&rest, NULL);
    wind_up();
}

/* Waits until all threads are there, and gives the calling one its timer. */
static void set_off(void) {
    for (uint64_t late = now() + PATIENCE; now() < late;) {
        uint64_t start = __atomic_load_n(&go, __ATOMIC_ACQUIRE);
        if (start && now() >= start) break;
        sched_yield();
    }
    if (state) return;
    state = 0x9e3779b97f4a7c15u * __atomic_add_fetch(&seeds, 1, __ATOMIC_RELAXED) | 1;
    struct sigevent to = {.sigev_notify = SIGEV_THREAD_ID, .sigev_signo = SIGRTMIN};
    prctl(PR_SET_TIMERSLACK, 1);
    to.sigev_notify_thread_id = (pid_t)syscall(SYS_gettid);
    if (timer_create(CLOCK_MONOTONIC, &to, &timer) == 0) wind_up();
}

__attribute__((constructor)) static void begin(void) {
    const char *threads = getenv("JOSTLE_THREADS"), *seed = getenv("JOSTLE_SEED");
    struct sigaction action;
    memset(&action, 0, sizeof action);
    action.sa_handler = rest;
    action.sa_flags = SA_RESTART;
    sigaction(SIGRTMIN, &action, NULL);
    seeds = seed ? strtoull(seed, NULL, 10) : 0;
    expected = threads ? strtoull(threads, NULL, 10) : 0;
}

struct job {
    void *(*start)(void *);
    void *argument;
    uint64_t number;
};

static void *started(void *place) {
    struct job job = *(struct job *)place;
    free(place);
    if (job.number == expected) set_off();
    return job.start(job.argument);
}

int pthread_create(pthread_t *thread, const pthread_attr_t *how, void *(*start)(void *), void *argument) {
    static int (*create)(pthread_t *, const pthread_attr_t *, void *(*)(void *), void *);
    if (!create) *(void **)&create = dlsym(RTLD_NEXT, "pthread_create");
    struct job *job = expected ? malloc(sizeof *job) : NULL;
    if (!job) return create(thread, how, start, argument);
    *job = (struct job){start, argument, __atomic_add_fetch(&made, 1, __ATOMIC_RELAXED)};
    if (job->number == expected) __atomic_store_n(&go, now() + START, __ATOMIC_RELEASE);
    int answer = create(thread, how, started, job);
    if (answer == 0) set_off();
    return answer;
}
