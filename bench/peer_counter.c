/* Counts in the file of a client's notes (see peer_client.c) how many files a process moved to
 * their places: for one that is started with this object in LD_PRELOAD, and the path of that file
 * in PEER_NOTES. */
#define _GNU_SOURCE
#include <fcntl.h>
#include <stdint.h>
#include <stdlib.h>
#include <sys/mman.h>
#include <sys/syscall.h>
#include <unistd.h>

static int64_t *notes;

__attribute__((constructor)) static void begin(void)
{
    const char *path = getenv("PEER_NOTES");
    int file = path ? open(path, O_RDWR | O_CLOEXEC) : -1;
    void *at = mmap(NULL, 2 * sizeof *notes, PROT_READ | PROT_WRITE, MAP_SHARED, file, 0);
    notes = at == MAP_FAILED ? NULL : at;
    if (file >= 0) close(file);
}

int rename(const char *from, const char *to)
{
    int moved = syscall(SYS_rename, from, to);
    if (!moved && notes) notes[1]++;
    return moved;
}
