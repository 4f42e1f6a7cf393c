/* Preloaded into a program: each thread that it starts adds a byte to the file that THREADS_FILE names. */
#define _GNU_SOURCE
#include <dlfcn.h>
#include <fcntl.h>
#include <pthread.h>
#include <stdlib.h>
#include <unistd.h>

typedef int create(pthread_t *, const pthread_attr_t *, void *(*)(void *), void *);

static void tell(void) {
    const char *path = getenv("THREADS_FILE");
    int file = path ? open(path, O_WRONLY | O_APPEND | O_CREAT, 0600) : -1;
    if (file < 0) return;
    if (write(file, "+", 1) != 1) abort();
    close(file);
}

int pthread_create(pthread_t *thread, const pthread_attr_t *how, void *(*work)(void *), void *with) {
    create *own = (create *)dlsym(RTLD_NEXT, "pthread_create");
    int status = own ? own(thread, how, work, with) : 11;
    if (status == 0) tell();
    return status;
}
