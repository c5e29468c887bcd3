// Locks that a function takes which the library calls as a thread's own.
#include <mutex>
#include <thread>
struct account {
    std::mutex lock;
    int balance;
};
static account *from, *to;
static void transfer()
{
    from->lock.lock();
    to->lock.lock();
    to->balance += from->balance;
    to->lock.unlock();
    from->lock.unlock();
}
int main()
{
    from = new account();
    to = new account();
    std::thread(transfer).join();
    return 0;
}
