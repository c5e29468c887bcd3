// GMutex under witness::annotated, which counts once, though it is recorded by itself, too.
#include <mutex>

#include <glib.h>
#include <witness.hpp>

struct GlibMutex {
    GMutex mutex = {};
    void lock() { g_mutex_lock(&mutex); }
    void unlock() { g_mutex_unlock(&mutex); }
    bool try_lock() { return g_mutex_trylock(&mutex); }
};
using Mutex = witness::annotated<GlibMutex>;

struct Table {
    Mutex lock;
};

static Mutex accounts;

int main()
{
    Table table, other;
    {
        std::lock_guard<Mutex> guard(accounts);
        std::lock_guard<Mutex> inner(table.lock);
    }
    std::lock_guard<Mutex> guard(other.lock);
    accounts.lock();
    accounts.unlock();
    if (accounts.try_lock())
        accounts.unlock();
    return 0;
}
