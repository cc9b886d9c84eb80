/* Makes syncs of the files of a store fail, and loses pages then, as Linux does: what was written since the last sync may be on
   the disk or not, and the pages count as clean. It stands before the C library (LD_PRELOAD).

   FORGETFUL_SYNCS  which calls of fdatasync fail, from 1, in this process: 3, or 4,5
   FORGETFUL_SEED   by which the lost pages are chosen
   FORGETFUL_TOLD   the file to which it appends a line for each failure: how many pages were lost */

#define _GNU_SOURCE
#include <dlfcn.h>
#include <errno.h>
#include <fcntl.h>
#include <pthread.h>
#include <stdio.h>
#include <stdlib.h>
#include <string.h>
#include <sys/stat.h>
#include <unistd.h>

enum { PAGE = 4096 };

/* A page as it was at the last sync. */
struct page {
    struct page *next;
    ino_t file;
    off_t at;
    ssize_t length;
    char bytes[PAGE];
};

static struct page *pages;
static pthread_mutex_t lock = PTHREAD_MUTEX_INITIALIZER;
static int syncs;
static unsigned seed;

typedef ssize_t (*write_call)(int, const void *, size_t, off_t);
typedef int (*sync_call)(int);

static ino_t file_of(int fd) {
    struct stat found;
    return fstat(fd, &found) == 0 && S_ISREG(found.st_mode) ? found.st_ino : 0;
}

static void remember(int fd, ino_t file, off_t at) {
    for (struct page *it = pages; it; it = it->next)
        if (it->file == file && it->at == at)
            return;
    struct page *it = calloc(1, sizeof *it);
    it->file = file;
    it->at = at;
    it->length = pread(fd, it->bytes, PAGE, at);
    it->next = pages;
    pages = it;
}

static ssize_t written(const char *name, int fd, const void *bytes, size_t length, off_t at) {
    write_call call = (write_call)dlsym(RTLD_NEXT, name);
    ino_t file = file_of(fd);
    pthread_mutex_lock(&lock);
    for (off_t page = at - at % PAGE; file && page < at + (off_t)length; page += PAGE)
        remember(fd, file, page);
    ssize_t came = call(fd, bytes, length, at);
    pthread_mutex_unlock(&lock);
    return came;
}

ssize_t pwrite(int fd, const void *bytes, size_t length, off_t at) {
    return written("pwrite", fd, bytes, length, at);
}

ssize_t pwrite64(int fd, const void *bytes, size_t length, off_t at) {
    return written("pwrite64", fd, bytes, length, at);
}

/* Forgets what the pages of a file were, and makes some of them so again if pages get lost. Returns how many. */
static int settle(int fd, ino_t file, int loses) {
    write_call call = (write_call)dlsym(RTLD_NEXT, "pwrite64");
    int lost = 0;
    for (struct page **place = &pages; *place;) {
        struct page *it = *place;
        if (it->file != file) {
            place = &it->next;
            continue;
        }
        struct stat now;
        if (loses && rand_r(&seed) % 2 && fstat(fd, &now) == 0 && it->at < now.st_size) {
            off_t length = now.st_size - it->at < PAGE ? now.st_size - it->at : PAGE;
            lost += call(fd, it->bytes, (size_t)length, it->at) == length;
        }
        *place = it->next;
        free(it);
    }
    return lost;
}

static int fails(void) {
    const char *text = getenv("FORGETFUL_SYNCS");
    char *end;
    for (syncs++; text && *text; text = *end ? end + 1 : end)
        if (strtol(text, &end, 10) == syncs)
            return 1;
    return 0;
}

static void tell(int lost) {
    const char *path = getenv("FORGETFUL_TOLD");
    FILE *told = path ? fopen(path, "a") : NULL;
    if (told) {
        fprintf(told, "%d\n", lost);
        fclose(told);
    }
}

static int synced(const char *name, int fd, int may_fail) {
    sync_call call = (sync_call)dlsym(RTLD_NEXT, name);
    ino_t file = file_of(fd);
    pthread_mutex_lock(&lock);
    if (file && may_fail && fails()) {
        if (!seed)
            seed = getenv("FORGETFUL_SEED") ? (unsigned)atoi(getenv("FORGETFUL_SEED")) : 1;
        tell(settle(fd, file, 1));
        pthread_mutex_unlock(&lock);
        errno = EIO;
        return -1;
    }
    int came = call(fd);
    if (came == 0)
        settle(fd, file, 0);
    pthread_mutex_unlock(&lock);
    return came;
}

int fdatasync(int fd) { return synced("fdatasync", fd, 1); }

int fsync(int fd) { return synced("fsync", fd, 0); }
