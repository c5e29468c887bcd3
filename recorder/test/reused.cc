// Objects of two classes that change places: their mutexes are taken in opposite orders of addresses, but not of
// classes. C++ has no call that makes or destroys a std::mutex.
#include <cstdio>
#include <mutex>

struct Page {
    std::mutex mutex;
    char bytes[88];
};
struct Buffer {
    std::mutex mutex;
    char bytes[88];
};

static bool reused;

template <class First, class Second> static void both(First &first, Second &second)
{
    std::lock_guard<std::mutex> outer(first.mutex);
    std::lock_guard<std::mutex> inner(second.mutex);
}

int main()
{
    Page *page = new Page;
    Buffer *buffer = new Buffer;
    both(*page, *buffer);
    void *at_page = page, *at_buffer = buffer;
    delete buffer;
    delete page;
    buffer = new Buffer;
    page = new Page;
    reused = (void *)page == at_buffer && (void *)buffer == at_page;
    both(*page, *buffer);
    delete page;
    delete buffer;
    puts(reused ? "addresses were reused" : "addresses were not reused");
    return 0;
}
