/*
 * Services of two kinds that one function makes, as libraries have them: the reports of a program without debug information. Of
 * each kind there are several; the thread that takes a filter and a producer does so the other way round.
 */
#include <pthread.h>
#include <stdlib.h>

struct service {
    pthread_mutex_t mutex;
};

static pthread_mutex_t journal = PTHREAD_MUTEX_INITIALIZER;

__attribute__((noinline)) struct service *service_init(void)
{
    struct service *service = malloc(sizeof *service);
    if (!service)
        abort();
    pthread_mutex_init(&service->mutex, NULL);
    return service;
}

__attribute__((noinline)) struct service *producer_init(void)
{
    struct service *service = service_init();
    return service;
}

__attribute__((noinline)) struct service *filter_init(void)
{
    struct service *service = service_init();
    return service;
}

__attribute__((noinline)) void get_frame(struct service *first, struct service *second)
{
    pthread_mutex_lock(&first->mutex);
    pthread_mutex_lock(&second->mutex);
    pthread_mutex_unlock(&second->mutex);
    pthread_mutex_unlock(&first->mutex);
}

__attribute__((noinline)) void log_frame(struct service *first)
{
    pthread_mutex_lock(&journal);
    pthread_mutex_lock(&first->mutex);
    pthread_mutex_unlock(&first->mutex);
    pthread_mutex_unlock(&journal);
    pthread_mutex_lock(&first->mutex);
    pthread_mutex_lock(&journal);
    pthread_mutex_unlock(&journal);
    pthread_mutex_unlock(&first->mutex);
}

static struct service *producer[3], *filter;

static void *renders(void *unused)
{
    get_frame(filter, producer[1]);
    return unused;
}

int main(void)
{
    pthread_t thread;
    for (int i = 0; i < 3; i++)
        producer[i] = producer_init();
    filter = filter_init();
    get_frame(producer[2], filter);
    pthread_create(&thread, NULL, renders, NULL);
    pthread_join(thread, NULL);
    log_frame(producer[2]);
    return 0;
}
