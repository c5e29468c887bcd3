// Locks that are taken by a template with a lambda inside.
#include <mutex>
#include <thread>
static std::mutex cache, journal;
template <class F> static void with(std::mutex &mutex, F inside)
{
    std::lock_guard<std::mutex> guard(mutex);
    inside();
}
static void transfer()
{
    with(cache, [] { with(journal, [] {}); });
}
static void audit()
{
    with(journal, [] {
        with(cache, [] {});
    });
}
int main()
{
    std::thread one(transfer);
    one.join();
    audit();
    return 0;
}
