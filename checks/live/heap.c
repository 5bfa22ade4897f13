// For checks/live/soak.py: writes each second how many bytes of the heap are in use to the file that HEAP_FILE names. Preloaded: cc -shared -fPIC heap.c -o heap.so
#define _GNU_SOURCE
#include <fcntl.h>
#include <malloc.h>
#include <pthread.h>
#include <stdio.h>
#include <stdlib.h>
#include <unistd.h>

static void *watch(void *given) {
    int file = open(given, O_WRONLY | O_CREAT | O_CLOEXEC, 0644);
    for (;;) {
        char text[32];
        struct mallinfo2 info = mallinfo2();
        int length = snprintf(text, sizeof text, "%20zu", info.uordblks + info.hblkhd);
        if (file < 0 || pwrite(file, text, (size_t)length, 0) != length) return NULL;
        sleep(1);
    }
}

__attribute__((constructor)) static void begin(void) {
    pthread_t thread;
    char *name = getenv("HEAP_FILE");
    if (name && pthread_create(&thread, NULL, watch, name) == 0) pthread_detach(thread);
}
