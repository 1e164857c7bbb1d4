// Put before the native program's own, it makes no thread, as in the page: so parts are done one after another in both.
#include <errno.h>
#include <pthread.h>

int pthread_create(pthread_t *thread, const pthread_attr_t *attributes, void *(*function)(void *), void *given) {
    return EAGAIN;
}
