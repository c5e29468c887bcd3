/*
 * lasting SEED [back]: locks of many kinds, first used in an order that the seed decides. What they are called is the same for
 * each order, however the program is compiled, and where its lines stand. With `back` each is then held where the one is asked
 * for under which it was taken before.
 */
#include <pthread.h>

#include <algorithm>
#include <cstdint>
#include <cstdlib>
#include <functional>
#include <map>
#include <memory>
#include <mutex>
#include <shared_mutex>
#include <vector>

static std::mutex table[100], all;
static bool is_back;

static void inside()
{
    if (!is_back)
        return;
    std::lock_guard<std::mutex> guard(all);
}

namespace bank
{
class Account {
    long balance = 0;

public:
    std::mutex mutex;

    void deposit(long amount)
    {
        std::lock_guard<std::mutex> guard(mutex);
        balance += amount;
        inside();
    }
};

template <class Value> struct Channel {
    std::mutex mutex;
    Value value{};

    Value take()
    {
        std::unique_lock<std::mutex> guard(this->mutex);
        inside();
        return value;
    }
};
} // namespace bank

struct Audit {
    std::shared_mutex readers;
    std::mutex lines;
};

/* One that a call makes, and that of the other kind beside it. */
struct Cache {
    pthread_mutex_t lock;
    pthread_rwlock_t readers;
};

struct Server {
    pthread_mutex_t accept, close;
    std::mutex few[3];
};

static Server server = {PTHREAD_MUTEX_INITIALIZER, PTHREAD_MUTEX_INITIALIZER, {}};
static pthread_mutex_t made[8];
static std::unique_ptr<Audit> journal;

static void transfer(bank::Account &from, bank::Account &to)
{
    std::scoped_lock both(from.mutex, to.mutex);
    inside();
}

static void check(std::vector<std::unique_ptr<bank::Account>> &accounts, size_t number)
{
    accounts[number]->mutex.lock();
    inside();
    accounts.at(number)->mutex.unlock();
}

static void write_line(Audit *audit)
{
    std::lock_guard<std::shared_mutex> outer(audit->readers);
    inside();
    std::lock_guard<std::mutex> inner(audit->lines);
    inside();
}

static void write_journal()
{
    std::lock_guard<std::mutex> guard(journal->lines);
    inside();
}

static Cache *make_cache()
{
    Cache *cache = static_cast<Cache *>(std::malloc(sizeof(Cache)));
    pthread_mutex_init(&cache->lock, nullptr);
    pthread_rwlock_init(&cache->readers, nullptr);
    return cache;
}

static void use_cache(Cache *cache)
{
    pthread_mutex_lock(&cache->lock);
    inside();
    pthread_rwlock_rdlock(&cache->readers);
    inside();
    pthread_rwlock_unlock(&cache->readers);
    pthread_mutex_unlock(&cache->lock);
}

static void own_lock()
{
    static std::mutex own;
    std::lock_guard<std::mutex> guard(own);
    inside();
}

static void shuffle(std::vector<std::function<void()>> &steps, uint64_t seed)
{
    for (size_t i = steps.size(); i > 1; i--) {
        seed = seed * 6364136223846793005u + 1442695040888963407u;
        std::swap(steps[i - 1], steps[(seed >> 33) % i]);
    }
}

int main(int count, char **words)
{
    std::vector<std::unique_ptr<bank::Account>> accounts;
    for (int i = 0; i < 4; i++)
        accounts.push_back(std::make_unique<bank::Account>());
    auto numbers = std::make_unique<bank::Channel<int>>();
    auto names = std::make_unique<bank::Channel<char>>();
    auto audit = std::make_unique<Audit>();
    std::map<int, Audit> audits;
    journal = std::make_unique<Audit>();
    Cache *pages = make_cache();
    Cache *files = make_cache();
    for (pthread_mutex_t &each : made)
        pthread_mutex_init(&each, nullptr);
    std::vector<std::function<void()>> steps = {
        [&] { accounts[0]->deposit(1); },
        [&] { transfer(*accounts[1], *accounts[2]); },
        [&] { check(accounts, 3); },
        [&] { numbers->take(); },
        [&] { names->take(); },
        [&] { write_line(audit.get()); },
        [&] { write_line(&audits[1]); },
        [&] { std::lock_guard<std::mutex> guard(audits[2].lines); inside(); },
        [&] { write_journal(); },
        [&] { use_cache(pages); },
        [&] { use_cache(files); },
        [&] { own_lock(); },
        [&] { pthread_mutex_lock(&server.accept), inside(), pthread_mutex_unlock(&server.accept); },
        [&] { pthread_mutex_lock(&server.close), inside(), pthread_mutex_unlock(&server.close); },
        [&] { std::lock_guard<std::mutex> guard(server.few[1]); inside(); },
    };
    for (int i = 0; i < 30; i++)
        steps.push_back([i] { std::lock_guard<std::mutex> guard(table[3 * i]); inside(); });
    for (pthread_mutex_t &each : made)
        steps.push_back([&each] { pthread_mutex_lock(&each), inside(), pthread_mutex_unlock(&each); });
    shuffle(steps, std::strtoull(words[1], nullptr, 10));
    for (auto &step : steps) {
        std::lock_guard<std::mutex> guard(all);
        step();
    }
    is_back = count > 2;
    for (auto &step : steps)
        if (is_back)
            step();
}
