// C++'s guards: the line named is the program's, not the library's.
#include <mutex>
#include <shared_mutex>

static std::mutex orders;
static std::shared_mutex customers;

static void ship()
{
    std::lock_guard<std::mutex> first(orders);
    std::shared_lock<std::shared_mutex> second(customers);
}

static void count()
{
    std::unique_lock<std::shared_mutex> only(customers);
}

static void bill()
{
    std::unique_lock<std::shared_mutex> first(customers);
    std::unique_lock<std::mutex> second(orders);
}

int main()
{
    ship();
    count();
    bill();
    return 0;
}
