// A std::mutex that is first used in a function whose frame is of varying size, through the library's wrappers. Wherever that
// is, all of the class are one type: two of them are held at once.
#include <alloca.h>
#include <cstdio>
#include <cstring>
#include <mutex>

struct shelf {
    std::mutex mutex;
    int books = 0;
};

__attribute__((noinline)) static int used(std::size_t size, shelf &one)
{
    char *room = static_cast<char *>(alloca(size));
    std::memset(room, 1, size);
    std::lock_guard<std::mutex> guard(one.mutex);
    return room[size / 2] + ++one.books;
}

static void run()
{
    shelf *first = new shelf, *second = new shelf, *third = new shelf;
    int sum = used(3000000, *first);
    sum += used(16, *second);
    sum += used(4096, *third);
    {
        std::lock_guard<std::mutex> outer(first->mutex);
        sum += used(64, *second);
    }
    std::printf("%d\n", sum);
}

int main()
{
    run();
}
