// Two accounts, and transfers both ways: each takes the lock of the account that pays, and then that of the other one.
#include <mutex>
#include <thread>

struct account {
    std::mutex lock;
    long money;
};

static account savings{{}, 100}, current{{}, 100};

static void transfer(account &from, account &to, long money)
{
    std::lock_guard<std::mutex> first(from.lock);
    std::lock_guard<std::mutex> second(to.lock);
    from.money -= money;
    to.money += money;
}

int main()
{
    std::thread(transfer, std::ref(savings), std::ref(current), 10).join();
    std::thread(transfer, std::ref(current), std::ref(savings), 20).join();
    return savings.money == 110 && current.money == 90 ? 0 : 1;
}
