/* Which rights an operation asks for. The table of README.md tells where each is from. */
#include "hudarinfs.h"

#include <fcntl.h>
#include <unistd.h>

/* Linux opens a file that it is to execute with this flag; open(2) takes it away from a caller's. */
#define OPENED_TO_EXECUTE 0x20

uint32_t mask_of_open(int flags)
{
    uint32_t mask = 0;
    int way = flags & O_ACCMODE;
    if ((flags & OPENED_TO_EXECUTE) != 0) {
        mask |= HUDARIN_FILE_EXECUTE;
    } else if (way != O_WRONLY) {
        mask |= HUDARIN_FILE_READ_DATA;
    }
    if (way != O_RDONLY) {
        mask |= (flags & O_APPEND) != 0 ? HUDARIN_FILE_APPEND_DATA : HUDARIN_FILE_WRITE_DATA;
    }
    if ((flags & O_TRUNC) != 0) {
        mask |= HUDARIN_FILE_WRITE_DATA;
    }
    return mask;
}

uint32_t mask_of_access(int how)
{
    uint32_t mask = 0;
    mask |= (how & R_OK) != 0 ? HUDARIN_FILE_READ_DATA : 0;
    mask |= (how & W_OK) != 0 ? HUDARIN_FILE_WRITE_DATA : 0;
    mask |= (how & X_OK) != 0 ? HUDARIN_FILE_EXECUTE : 0;
    return mask;
}

uint32_t mask_of_adding(bool is_folder)
{
    return is_folder ? HUDARIN_FILE_APPEND_DATA : HUDARIN_FILE_WRITE_DATA;
}
