/*
 * How MOUNT is mounted and served, and what its end says. libfuse's own loop (3.14) isn't used: where calls are pending
 * at an unmount Linux ends a read by ECONNABORTED too, which that loop takes for a failure; and a thread that it
 * cancels while it reports that keeps the lock of standard error, so that the next one waits for good.
 */
#include "hudarinfs.h"

#include <errno.h>
#include <fuse.h>
#include <fuse_lowlevel.h>
#include <pthread.h>
#include <signal.h>
#include <stdatomic.h>
#include <stdlib.h>
#include <string.h>
#include <unistd.h>

/* So many calls are answered at once (quotas.c has descriptors for them). */
#define THREADS 16
/* Ends the wait of a thread for a call, and of the first one for a signal. */
#define WAKE SIGUSR1

struct serving {
    struct fuse_session *session;
    pthread_t first, threads[THREADS];
    int count;
    atomic_int failure; /* a negative error number, or 0 */
};

static void wake(int number)
{
    (void)number;
}

/* Answers calls until MOUNT is unmounted (0 or -ECONNABORTED), or the session is to end. */
static void *answer_calls(void *at)
{
    struct serving *serving = at;
    struct fuse_buf call = { .mem = NULL };
    int got = 1;
    sigset_t waking;
    (void)sigemptyset(&waking);
    (void)sigaddset(&waking, WAKE);
    (void)pthread_sigmask(SIG_UNBLOCK, &waking, NULL);
    while (!fuse_session_exited(serving->session) && (got > 0 || got == -EINTR)) {
        got = fuse_session_receive_buf(serving->session, &call);
        if (got > 0) {
            fuse_session_process_buf(serving->session, &call);
        }
    }
    if (got < 0 && got != -EINTR && got != -ECONNABORTED) {
        atomic_store(&serving->failure, got);
    }
    fuse_session_exit(serving->session);
    free(call.mem);
    (void)pthread_kill(serving->first, WAKE);
    return NULL;
}

/* The number of a signal that is to end the server, or 0 once a thread has ended the session. */
static int wait_for_end(const struct serving *serving, const sigset_t *signals)
{
    int number = WAKE;
    while (number == WAKE && !fuse_session_exited(serving->session)) {
        (void)sigwait(signals, &number);
    }
    return number == WAKE ? 0 : number;
}

/* A thread that tests whether the session is to end, and then waits for a call, is woken again. */
static void end_threads(const struct serving *serving)
{
    fuse_session_exit(serving->session);
    for (int at = 0; at < serving->count; at++) {
        while (pthread_tryjoin_np(serving->threads[at], NULL) != 0) {
            (void)pthread_kill(serving->threads[at], WAKE);
            (void)usleep(1000);
        }
    }
}

/* The signals that end the server, and the one that wakes, wait for the first thread, in whichever thread they come. */
static int answer_by_threads(struct serving *serving)
{
    struct sigaction waking = { .sa_handler = wake };
    sigset_t signals;
    (void)sigaction(WAKE, &waking, NULL);
    (void)sigemptyset(&signals);
    (void)sigaddset(&signals, WAKE);
    (void)sigaddset(&signals, SIGINT);
    (void)sigaddset(&signals, SIGTERM);
    (void)pthread_sigmask(SIG_BLOCK, &signals, NULL);
    int error = 0, number = 0;
    while (error == 0 && serving->count < THREADS) {
        error = pthread_create(&serving->threads[serving->count], NULL, answer_calls, serving);
        serving->count += error == 0 ? 1 : 0;
    }
    if (error == 0) {
        number = wait_for_end(serving, &signals);
    }
    end_threads(serving);
    int failure = error == 0 ? atomic_load(&serving->failure) : -error;
    return failure < 0 ? failure : number;
}

/* Messages of libfuse say why it isn't mounted. */
static int serve_at(struct fuse *fuse, const char *mount)
{
    struct serving serving = { .session = fuse_get_session(fuse), .first = pthread_self() };
    if (fuse_mount(fuse, mount) != 0) {
        return -EIO;
    }
    (void)fuse_daemonize(1); /* in the foreground, and in no folder */
    int ended = answer_by_threads(&serving);
    say_serving(false);
    fuse_unmount(fuse);
    return ended;
}

int serve(const char *mount)
{
    static char name[] = "hudarinfs", option[] = "-o",
                options[] = "allow_other,nosuid,nodev,fsname=hudarinfs,subtype=hudarinfs";
    char *words[] = { name, option, options, NULL };
    struct fuse_args arguments = FUSE_ARGS_INIT(3, words);
    char *real = realpath(mount, NULL);
    if (real == NULL) {
        return -errno;
    }
    struct fuse *fuse = fuse_new(&arguments, operations(), sizeof(struct fuse_operations), NULL);
    int ended = fuse == NULL ? -ENOMEM : serve_at(fuse, real);
    if (fuse != NULL) {
        fuse_destroy(fuse);
    }
    fuse_opt_free_args(&arguments);
    free(real);
    return ended;
}
