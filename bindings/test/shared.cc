// witness::annotated over locks with the calls of the standard: a spin lock, one for readers and writers, one that waits for
// a condition, and one that is recorded by itself, too. The first report is of the two by std's guards.
#include <atomic>
#include <chrono>
#include <condition_variable>
#include <mutex>
#include <thread>

#include <witness.hpp>

// 0 where it is free, -1 for a writer, else so many readers.
class Turnstile {
public:
    void lock()
    {
        while (!try_lock())
            std::this_thread::yield();
    }
    bool try_lock()
    {
        int none = 0;
        return state.compare_exchange_strong(none, -1);
    }
    void unlock() { state = 0; }
    void lock_shared()
    {
        for (int readers = 0; readers < 0 || !state.compare_exchange_weak(readers, readers + 1); readers = state)
            std::this_thread::yield();
    }
    void unlock_shared() { state--; }

private:
    std::atomic<int> state{0};
};

class Spin {
public:
    void lock()
    {
        while (held.test_and_set())
            std::this_thread::yield();
    }
    template <class Limit> bool try_lock_for(const Limit &limit)
    {
        auto end = std::chrono::steady_clock::now() + limit;
        while (held.test_and_set())
            if (std::chrono::steady_clock::now() > end)
                return false;
        return true;
    }
    void unlock() { held.clear(); }

private:
    std::atomic_flag held = ATOMIC_FLAG_INIT;
};

struct Account {
    witness::annotated<Spin> lock;
};

static witness::annotated<Turnstile> orders;
static witness::annotated<Spin> timed;

int main()
{
    Account *account = new Account, *other = new Account;
    std::condition_variable_any paid;
    orders.lock_shared();
    {
        std::lock_guard<witness::annotated<Spin>> guard(account->lock);
    }
    orders.unlock_shared();
    {
        std::lock_guard<witness::annotated<Spin>> guard(other->lock);
        std::lock_guard<witness::annotated<Turnstile>> inner(orders);
    }
    {
        std::unique_lock<witness::annotated<Spin>> guard(account->lock);
        if (timed.try_lock_for(std::chrono::milliseconds(1))) {
            paid.wait_for(guard, std::chrono::milliseconds(1));
            timed.unlock();
        }
    }
    if (orders.try_lock())
        orders.unlock();
    witness::annotated<std::mutex> recorded;
    recorded.lock();
    recorded.unlock();
    if (recorded.try_lock())
        recorded.unlock();
    delete account;
    delete other;
    return 0;
}
