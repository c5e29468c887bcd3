/* Two locks that are locked, or made, on one line: of two classes and by no call, or by a call each. */
#include <mutex>
#include <pthread.h>
struct U { std::mutex m; long n; };
struct A { std::mutex m; long n; };
static pthread_mutex_t *p, *q;
__attribute__((noinline)) void transfer(U &u, A &a)
{
    std::lock_guard<std::mutex> x(u.m); std::lock_guard<std::mutex> y(a.m);
    u.n += a.n;
}
__attribute__((noinline)) void refund(U &u, A &a)
{
    std::lock_guard<std::mutex> x(a.m); std::lock_guard<std::mutex> y(u.m);
    u.n += a.n;
}
__attribute__((noinline)) void both()
{
    pthread_mutex_lock(p); pthread_mutex_lock(q);
    pthread_mutex_unlock(q); pthread_mutex_unlock(p);
}
__attribute__((noinline)) static void take(pthread_mutex_t *first, pthread_mutex_t *second)
{
    pthread_mutex_lock(first);
    pthread_mutex_lock(second);
    pthread_mutex_unlock(second);
    pthread_mutex_unlock(first);
}

int main()
{
    U *u = new U, *u2 = new U; A *a = new A, *a2 = new A;
    p = new pthread_mutex_t; q = new pthread_mutex_t;
    pthread_mutex_init(p, nullptr); pthread_mutex_init(q, nullptr);
    transfer(*u, *a);
    refund(*u2, *a2);
    both();
    take(p, q);
    take(q, p);
}
