/* The system below sqlite, for databases in memory: there are no files, and the time is always the same. */
#include <string.h>
#include "sqlite3.h"

static int open_file(sqlite3_vfs *system, const char *name, sqlite3_file *file, int flags, int *out)
{
    (void)system, (void)name, (void)file, (void)flags, (void)out;
    return SQLITE_CANTOPEN;
}

static int delete_file(sqlite3_vfs *system, const char *name, int sync)
{
    (void)system, (void)name, (void)sync;
    return SQLITE_OK;
}

static int access_file(sqlite3_vfs *system, const char *name, int flags, int *out)
{
    (void)system, (void)name, (void)flags;
    *out = 0;
    return SQLITE_OK;
}

static int full_name(sqlite3_vfs *system, const char *name, int size, char *out)
{
    (void)system;
    strncpy(out, name, (size_t)size);
    return SQLITE_OK;
}

static int random_bytes(sqlite3_vfs *system, int size, char *out)
{
    (void)system;
    memset(out, 7, (size_t)size);
    return size;
}

static int wait_for(sqlite3_vfs *system, int microseconds)
{
    (void)system;
    return microseconds;
}

static int day(sqlite3_vfs *system, double *out)
{
    (void)system;
    *out = 2460000.5;
    return 0;
}

static int day_in_milliseconds(sqlite3_vfs *system, sqlite3_int64 *out)
{
    (void)system;
    *out = 212544000000000LL;
    return 0;
}

static sqlite3_vfs files = {
    .iVersion = 2, .szOsFile = sizeof(sqlite3_file), .mxPathname = 128, .zName = "none", .xOpen = open_file,
    .xDelete = delete_file, .xAccess = access_file, .xFullPathname = full_name, .xRandomness = random_bytes, .xSleep = wait_for,
    .xCurrentTime = day, .xCurrentTimeInt64 = day_in_milliseconds,
};

int sqlite3_os_init(void)
{
    return sqlite3_vfs_register(&files, 1);
}

int sqlite3_os_end(void)
{
    return SQLITE_OK;
}
