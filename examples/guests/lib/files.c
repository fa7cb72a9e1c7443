/* Files in memory, and the streams 0, 1 and 2: what newlib calls for them. program.h describes both. */
#include <errno.h>
#include <fcntl.h>
#include <stdlib.h>
#include <string.h>
#include <sys/stat.h>
#include <unistd.h>
#include "program.h"

#define STREAMS 3
#define MOST_OPEN 20

struct place {
    struct program_file *file;
    size_t at;
    int flags; /* of open */
};

static struct place places[MOST_OPEN];

/* The names of files that the program made, from malloc; null for the others. */
static char *made_names[PROGRAM_FILES];

static struct place *place_of(int number)
{
    if (number < STREAMS || number >= MOST_OPEN || places[number].file == NULL) {
        errno = EBADF;
        return NULL;
    }
    return &places[number];
}

/* The place of a file that was not opened with that access alone. */
static struct place *place_without(int number, int access)
{
    struct place *place = place_of(number);
    if (place == NULL || (place->flags & O_ACCMODE) != access)
        return place;
    errno = EBADF;
    return NULL;
}

static struct program_file *named(const char *name)
{
    for (int i = 0; i < PROGRAM_FILES; i++)
        if (program_files[i].name != NULL && strcmp(program_files[i].name, name) == 0)
            return &program_files[i];
    errno = ENOENT;
    return NULL;
}

static void empty(struct program_file *file)
{
    if (file->room > 0)
        free((void *)file->bytes);
    file->bytes = NULL;
    file->length = file->room = 0;
}

static struct program_file *made(const char *name)
{
    for (int i = 0; i < PROGRAM_FILES; i++)
        if (program_files[i].name == NULL) {
            made_names[i] = strdup(name);
            if (made_names[i] == NULL)
                return NULL;
            program_files[i] = (struct program_file){.name = made_names[i]};
            return &program_files[i];
        }
    errno = ENFILE;
    return NULL;
}

/* Gives a file memory of its own, of at least `length` bytes. */
static int grown(struct program_file *file, size_t length)
{
    if (length <= file->room)
        return 1;
    size_t room = 2 * length + 1024;
    unsigned char *bytes = malloc(room);
    if (bytes == NULL) {
        errno = ENOSPC;
        return 0;
    }
    if (file->length > 0)
        memcpy(bytes, file->bytes, file->length);
    if (file->room > 0)
        free((void *)file->bytes);
    file->bytes = bytes;
    file->room = room;
    return 1;
}

/* The number of a free place. */
static int free_place(void)
{
    for (int number = STREAMS; number < MOST_OPEN; number++)
        if (places[number].file == NULL)
            return number;
    errno = EMFILE;
    return -1;
}

int open(const char *name, int flags, ...)
{
    struct program_file *file = named(name);
    int number = free_place();
    if (file != NULL && (flags & O_CREAT) && (flags & O_EXCL)) {
        errno = EEXIST;
        return -1;
    }
    if (number >= 0 && file == NULL && (flags & O_CREAT))
        file = made(name);
    if (number < 0 || file == NULL)
        return -1;
    if (flags & O_TRUNC)
        empty(file);
    places[number] = (struct place){.file = file, .flags = flags};
    return number;
}

int close(int number)
{
    if (number >= 0 && number < STREAMS)
        return 0;
    struct place *place = place_of(number);
    if (place == NULL)
        return -1;
    place->file = NULL;
    return 0;
}

ssize_t read(int number, void *to, size_t size)
{
    if (number == 0)
        return program_input(to, size);
    struct place *place = place_without(number, O_WRONLY);
    if (place == NULL)
        return -1;
    struct program_file *file = place->file;
    size_t left = place->at < file->length ? file->length - place->at : 0;
    if (size > left)
        size = left;
    if (size > 0)
        memcpy(to, file->bytes + place->at, size);
    place->at += size;
    return (ssize_t)size;
}

ssize_t write(int number, const void *from, size_t size)
{
    if (number == 1 || number == 2)
        return program_output(number, from, size);
    struct place *place = place_without(number, O_RDONLY);
    if (place == NULL)
        return -1;
    struct program_file *file = place->file;
    if (size == 0)
        return 0;
    if (place->flags & O_APPEND)
        place->at = file->length;
    if (!grown(file, place->at + size))
        return -1;
    unsigned char *bytes = (unsigned char *)file->bytes;
    if (place->at > file->length)
        memset(bytes + file->length, 0, place->at - file->length);
    memcpy(bytes + place->at, from, size);
    place->at += size;
    if (place->at > file->length)
        file->length = place->at;
    return (ssize_t)size;
}

off_t lseek(int number, off_t offset, int from)
{
    if (number >= 0 && number < STREAMS) {
        errno = ESPIPE;
        return -1;
    }
    struct place *place = place_of(number);
    if (place == NULL)
        return -1;
    if (from == SEEK_CUR)
        offset += (off_t)place->at;
    else if (from == SEEK_END)
        offset += (off_t)place->file->length;
    if (offset < 0) {
        errno = EINVAL;
        return -1;
    }
    place->at = (size_t)offset;
    return offset;
}

static int described(const struct program_file *file, struct stat *status)
{
    memset(status, 0, sizeof *status);
    status->st_mode = S_IFREG | 0644;
    status->st_size = (off_t)file->length;
    status->st_blksize = 1024;
    return 0;
}

int fstat(int number, struct stat *status)
{
    if (number >= 0 && number < STREAMS) {
        memset(status, 0, sizeof *status);
        status->st_mode = S_IFCHR | 0644;
        return 0;
    }
    struct place *place = place_of(number);
    return place == NULL ? -1 : described(place->file, status);
}

int stat(const char *restrict name, struct stat *restrict status)
{
    struct program_file *file = named(name);
    return file == NULL ? -1 : described(file, status);
}

int isatty(int number)
{
    return number >= 0 && number < STREAMS;
}

/* A file that is open is not removed. */
int unlink(const char *name)
{
    struct program_file *file = named(name);
    if (file == NULL)
        return -1;
    for (int number = STREAMS; number < MOST_OPEN; number++)
        if (places[number].file == file) {
            errno = EBUSY;
            return -1;
        }
    empty(file);
    free(made_names[file - program_files]);
    made_names[file - program_files] = NULL;
    file->name = NULL;
    return 0;
}

int link(const char *from, const char *to)
{
    (void)from, (void)to;
    errno = EMLINK;
    return -1;
}
