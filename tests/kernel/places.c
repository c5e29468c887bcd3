#include <pthread.h>

static pthread_mutex_t lock = PTHREAD_MUTEX_INITIALIZER;

int takes(void)
{
	pthread_mutex_lock(&lock);
	return pthread_mutex_unlock(&lock);
}

int main(void)
{
	return takes();
}
