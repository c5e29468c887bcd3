/*
 * Lambdas that the compiler puts into functions of the C++ library: of std::function and std::sort, and a lock that a
 * container's function takes. Always the journal, then the cache, then the index; with a word the other way round too.
 */
#include <algorithm>
#include <functional>
#include <memory>
#include <mutex>
#include <thread>
#include <vector>

struct Part {
    std::mutex mutex;
    long count = 0;
};

static auto journal = std::make_unique<Part>();
static auto cache = std::make_unique<Part>();
static auto index_of = std::make_unique<Part>();
static std::vector<std::function<void()>> tasks;

static void sort_numbers(bool other)
{
    std::vector<int> numbers;
    for (int i = 0; i < 40; i++)
        numbers.push_back(i * 7 % 40);
    if (other)
        std::sort(numbers.begin(), numbers.end(), [](int a, int b) {
            std::lock_guard<std::mutex> outer(index_of->mutex);
            std::lock_guard<std::mutex> inner(cache->mutex);
            cache->count++;
            return a > b;
        });
    else
        std::sort(numbers.begin(), numbers.end(), [](int a, int b) {
            std::lock_guard<std::mutex> outer(cache->mutex);
            std::lock_guard<std::mutex> inner(index_of->mutex);
            index_of->count++;
            return a < b;
        });
}

int main(int count, char **)
{
    tasks.push_back([] {
        std::lock_guard<std::mutex> outer(journal->mutex);
        std::lock_guard<std::mutex> inner(cache->mutex);
        cache->count++;
    });
    if (count > 1)
        tasks.push_back([] {
            std::lock_guard<std::mutex> outer(cache->mutex);
            std::lock_guard<std::mutex> inner(journal->mutex);
            journal->count++;
        });
    std::thread([] { for (auto &task : tasks) task(); }).join();
    sort_numbers(false);
    if (count > 1)
        sort_numbers(true);
    std::thread([] {
        std::vector<std::unique_lock<std::mutex>> held;
        held.emplace_back(journal->mutex);
        held.emplace_back(index_of->mutex);
    }).join();
}
