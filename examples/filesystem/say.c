/*
 * The log, on standard error. A line has its time and, in an operation, the uid and the pid of the caller. A byte of a
 * name can't end a line or reach a terminal: all but printable ASCII is written as \xHH. A user other than root has
 * LINES_A_SECOND.
 */
#include "hudarinfs.h"

#include <fuse.h>
#include <pthread.h>
#include <stdarg.h>
#include <stdatomic.h>
#include <stdio.h>
#include <string.h>
#include <time.h>
#include <unistd.h>

#define LINE_BYTES 1024
/* Enough to follow one user by, and no more than 2 MB in a minute. Users whose uid differs by COUNTS share a count. */
#define LINES_A_SECOND 20
#define COUNTS 256

struct count {
    time_t second;
    unsigned lines;
    unsigned long left_out;
};

static struct count counts[COUNTS]; /* under the lock */
static pthread_mutex_t count_lock = PTHREAD_MUTEX_INITIALIZER;
static atomic_bool is_serving;

void say_serving(bool is)
{
    atomic_store(&is_serving, is);
}

/* The caller whose operation this thread carries out, or NULL. libfuse has none before it serves, nor behind it. */
static const struct fuse_context *caller(void)
{
    return atomic_load(&is_serving) ? fuse_get_context() : NULL;
}

/* Whether the user may have one more line in this second, and how many it lost before. */
static bool may_say(uid_t uid, time_t now, unsigned long *left_out)
{
    struct count *count = &counts[uid % COUNTS];
    *left_out = 0;
    if (uid == 0) {
        return true;
    }
    (void)pthread_mutex_lock(&count_lock);
    if (count->second != now) {
        *left_out = count->left_out;
        *count = (struct count){ now, 0, 0 };
    }
    bool may = count->lines < LINES_A_SECOND;
    count->lines += may ? 1 : 0;
    count->left_out += may ? 0 : 1;
    (void)pthread_mutex_unlock(&count_lock);
    return may;
}

/* Writes the text behind what the line has, as far as it has room for each byte's four digits and the line feed. */
static size_t put_text(char line[LINE_BYTES], size_t length, const char *text)
{
    static const char digits[] = "0123456789abcdef";
    for (; *text != '\0' && length + 5 < LINE_BYTES; text++) {
        unsigned char byte = (unsigned char)*text;
        if (byte == '\\') {
            line[length++] = '\\';
            line[length++] = '\\';
        } else if (byte >= ' ' && byte < 0x7f) {
            line[length++] = (char)byte;
        } else {
            line[length++] = '\\';
            line[length++] = 'x';
            line[length++] = digits[byte >> 4];
            line[length++] = digits[byte & 15];
        }
    }
    return length;
}

/* One write for each line, so that lines of many threads don't mix. */
static void write_line(time_t now, const struct fuse_context *context, const char *text)
{
    char line[LINE_BYTES];
    struct tm parts;
    size_t length = gmtime_r(&now, &parts) == NULL ? 0 : strftime(line, 64, "%Y-%m-%dT%H:%M:%SZ ", &parts);
    length += (size_t)snprintf(line + length, 64, "hudarinfs: ");
    if (context != NULL) {
        length += (size_t)snprintf(line + length, 64, "uid %lu pid %ld: ", (unsigned long)context->uid,
                                   (long)context->pid);
    }
    length = put_text(line, length, text);
    line[length] = '\n';
    if (write(STDERR_FILENO, line, length + 1) < 0) {
        return; /* nobody is left to be informed that the log can't be written */
    }
}

void say(const char *format, ...)
{
    char text[LINE_BYTES];
    const struct fuse_context *context = caller();
    time_t now = time(NULL);
    unsigned long left_out = 0;
    if (context != NULL && !may_say(context->uid, now, &left_out)) {
        return;
    }
    if (left_out > 0) {
        (void)snprintf(text, sizeof text, "%lu lines before this one are left out", left_out);
        write_line(now, context, text);
    }
    va_list arguments;
    va_start(arguments, format);
    (void)vsnprintf(text, sizeof text, format, arguments);
    va_end(arguments);
    write_line(now, context, text);
}
