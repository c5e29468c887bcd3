/*
 * Tasks of std::async that move between two accounts in both orders. At -O2 they are inlined in functions of the C++ library,
 * which call one another.
 */
#include <chrono>
#include <cstdio>
#include <future>
#include <mutex>
#include <thread>

static std::mutex savings, checking;
static int saved, checked;

static void rest(int milliseconds)
{
    std::this_thread::sleep_for(std::chrono::milliseconds(milliseconds));
}

int main()
{
    auto deposit = std::async(std::launch::async, [] {
        for (int i = 0; i < 20; i++) {
            rest(3);
            std::lock_guard<std::mutex> from(checking);
            std::lock_guard<std::mutex> to(savings);
            saved++;
        }
    });
    auto withdraw = std::async(std::launch::async, [] {
        for (int i = 0; i < 20; i++) {
            rest(5);
            std::lock_guard<std::mutex> from(savings);
            std::lock_guard<std::mutex> to(checking);
            checked++;
        }
    });
    deposit.get();
    withdraw.get();
    std::puts("ended");
}
