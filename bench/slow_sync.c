// A sync that takes so many nanoseconds, for programs whose files are in memory: `SYNC_NANOSECONDS=40000 LD_PRELOAD=./slow_sync.so PROGRAM ..`
// cc -O2 -shared -fPIC -o slow_sync.so slow_sync.c
#include <stdlib.h>
#include <sys/prctl.h>
#include <time.h>

static struct timespec length;

__attribute__((constructor)) static void begin(void)
{
    const char *text = getenv("SYNC_NANOSECONDS");
    length.tv_nsec = text ? atol(text) : 0;
    prctl(PR_SET_TIMERSLACK, 1, 0, 0, 0);
}

int fsync(int file)
{
    (void)file;
    return nanosleep(&length, NULL);
}
