/* For tests alone: the process ends at a step, as by a crash, or waits before the view changes or a file closes. */
#include "hudarinfs.h"

#ifdef STEPS
#include <signal.h>
#include <stdatomic.h>
#include <stdlib.h>
#include <unistd.h>

static atomic_long left;
static atomic_long wait;

static long number_of(const char *name)
{
    const char *number = getenv(name);
    return number == NULL ? 0 : strtol(number, NULL, 10);
}

void steps_begin(void)
{
    atomic_store(&left, number_of("HUDARINFS_STEP"));
    atomic_store(&wait, number_of("HUDARINFS_WAIT"));
}

void linger(void)
{
    if (atomic_load(&wait) > 0) {
        (void)usleep((useconds_t)atomic_load(&wait));
    }
}

void step(void)
{
    if (atomic_load(&left) > 0 && atomic_fetch_sub(&left, 1) == 1) {
        (void)raise(SIGKILL);
    }
}
#else
/* A file of C has to declare something. */
typedef int no_steps;
#endif
