/* Loaded before a program: a disk that takes what is written and then does not keep it, a file's bytes or, with FOLDER set, a folder's names. */
#include <errno.h>
#include <stdlib.h>
#include <sys/stat.h>

int fsync(int descriptor)
{
    struct stat about;
    if (fstat(descriptor, &about) != 0 || (S_ISDIR(about.st_mode) != 0) == (getenv("FOLDER") != NULL)) {
        errno = EIO;
        return -1;
    }
    return 0;
}
