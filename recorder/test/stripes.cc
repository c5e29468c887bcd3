/*
 * stripes COUNT: so many mutexes of a table, which no call has made, each of them under one lock. They are more than a
 * trace has room for types. Then two others are taken in both orders.
 */
#include <cstdlib>
#include <mutex>
#include <thread>

static std::mutex table[8192], all, front, back;

static void both(std::mutex &first, std::mutex &second)
{
    std::lock_guard<std::mutex> outer(first);
    std::lock_guard<std::mutex> inner(second);
}

int main(int, char **words)
{
    for (int i = 0; i < std::atoi(words[1]); i++)
        both(all, table[i]);
    std::thread([] { both(front, back); }).join();
    std::thread([] { both(back, front); }).join();
}
