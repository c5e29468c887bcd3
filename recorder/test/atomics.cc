// A spin lock on std::atomic for readers and writers, annotated, and used by std::lock_guard and std::shared_lock.
#include <atomic>
#include <mutex>
#include <shared_mutex>
#include <thread>

#include "witness.h"

class Turnstile {
public:
    void lock()
    {
        witness_asked(this, WITNESS_WRITE);
        for (int none = 0; !state.compare_exchange_weak(none, -1); none = 0)
            std::this_thread::yield();
        witness_acquired(this);
    }
    void unlock()
    {
        witness_released(this);
        state = 0;
    }
    void lock_shared()
    {
        witness_asked(this, WITNESS_READ);
        for (int readers = 0; readers < 0 || !state.compare_exchange_weak(readers, readers + 1); readers = state)
            std::this_thread::yield();
        witness_acquired(this);
    }
    void unlock_shared()
    {
        witness_released(this);
        state--;
    }

private:
    std::atomic<int> state{0};
};

static Turnstile orders, customers;

int main()
{
    {
        std::shared_lock<Turnstile> first(orders);
        std::lock_guard<Turnstile> second(customers);
    }
    std::lock_guard<Turnstile> first(customers);
    std::lock_guard<Turnstile> second(orders);
    return 0;
}
