// Locks that are taken in the lambdas of std::thread, which a compiler inlines into the library's functions.
#include <mutex>
#include <thread>
static std::mutex cache, journal;
int main()
{
    std::thread one([] {
        cache.lock();
        journal.lock();
        journal.unlock();
        cache.unlock();
    });
    one.join();
    std::thread two([] {
        journal.lock();
        cache.lock();
        cache.unlock();
        journal.unlock();
    });
    two.join();
    return 0;
}
