/* Files and memory: the only places where the desk speaks to the system. */
#include "desk.h"

#include <errno.h>
#include <fcntl.h>
#include <stdio.h>
#include <stdlib.h>
#include <string.h>
#include <sys/mman.h>
#include <sys/stat.h>
#include <unistd.h>

enum { PATH_ROOM = 4096 };

/* Maps a file for reading. Nobody may write or shorten it while it is mapped: build a new index beside the old one and rename it. */
int map_file(const char *path, struct mapped *file)
{
    struct stat about;
    int descriptor = open(path, O_RDONLY);
    if (descriptor < 0 || fstat(descriptor, &about) != 0 || !S_ISREG(about.st_mode)) {
        fprintf(stderr, "desk: cannot read %s\n", path);
        if (descriptor >= 0) {
            close(descriptor);
        }
        return 0;
    }
    file->bytes = NULL;
    file->length = (size_t)about.st_size;
    if (file->length > 0) {
        void *at = mmap(NULL, file->length, PROT_READ, MAP_PRIVATE, descriptor, 0);
        file->bytes = at == MAP_FAILED ? NULL : at;
    }
    close(descriptor);
    if (file->length > 0 && file->bytes == NULL) {
        fprintf(stderr, "desk: cannot map %s\n", path);
        return 0;
    }
    return 1;
}

void unmap_file(struct mapped *file)
{
    if (file->bytes != NULL) {
        munmap((void *)file->bytes, file->length);
    }
    file->bytes = NULL;
    file->length = 0;
}

/* Says what went wrong with a file, and why. */
static int failed(const char *what, const char *path)
{
    fprintf(stderr, "desk: %s %s: %s\n", what, path, strerror(errno));
    return 0;
}

/* Writes a new file whole, and has it on the disk before it comes back. */
static int write_synced(const char *path, const uint8_t *bytes, size_t length)
{
    FILE *file = fopen(path, "wb");
    if (file == NULL) {
        return failed("cannot write", path);
    }
    int written = fwrite(bytes, 1, length, file) == length && fflush(file) == 0 && fsync(fileno(file)) == 0;
    written = written || failed("cannot write", path);
    if (fclose(file) != 0 && written) {
        written = failed("cannot write", path);
    }
    return written;
}

/* Has the names in the folder of a path on the disk. */
static int sync_folder(const char *path)
{
    char folder[PATH_ROOM];
    const char *end = strrchr(path, '/');
    size_t length = end == NULL ? 0 : (size_t)(end - path) + 1;
    snprintf(folder, sizeof folder, "%.*s.", (int)length, path);
    int descriptor = open(folder, O_RDONLY | O_DIRECTORY);
    int synced = descriptor >= 0 && fsync(descriptor) == 0;
    synced = synced || failed("cannot sync the folder of", path);
    if (descriptor >= 0) {
        close(descriptor);
    }
    return synced;
}

/* Writes beside the path and renames, so that a desk that has the old index mapped keeps it whole. The new file is on the disk before it takes the
 * name, and the name before the build is reported: a power cut leaves the old index or the new one. */
int write_file(const char *path, const uint8_t *bytes, size_t length)
{
    char beside[PATH_ROOM];
    if (snprintf(beside, sizeof beside, "%s.new", path) >= (int)sizeof beside) {
        errno = ENAMETOOLONG;
        return failed("cannot write", path);
    }
    if (!write_synced(beside, bytes, length)) {
        remove(beside);
        return 0;
    }
    if (rename(beside, path) != 0) {
        failed("cannot replace", path);
        remove(beside);
        return 0;
    }
    return sync_folder(path);
}

/* realloc that does not come back without memory. */
void *grown(void *block, size_t count, size_t size)
{
    void *larger = count > SIZE_MAX / size ? NULL : realloc(block, count * size);
    if (larger == NULL && count > 0) {
        fprintf(stderr, "desk: no memory\n");
        exit(UNUSABLE);
    }
    return larger;
}
