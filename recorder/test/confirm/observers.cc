// Observers are told under the model's mutex, and an observer asks the model under its own.
#include <chrono>
#include <cstdio>
#include <mutex>
#include <thread>
#include <vector>

struct Observer;

struct Model {
    std::mutex guard;
    std::vector<Observer *> all;
    int value = 0;
    void set(int to);
    int get()
    {
        std::lock_guard<std::mutex> held(guard);
        return value;
    }
};

struct Observer {
    std::mutex guard;
    Model *model = nullptr;
    int seen = 0;
    void changed(int to)
    {
        std::lock_guard<std::mutex> held(guard);
        seen = to;
    }
    int refresh()
    {
        std::lock_guard<std::mutex> held(guard);
        return seen = model->get();
    }
};

void Model::set(int to)
{
    std::lock_guard<std::mutex> held(guard);
    value = to;
    for (Observer *observer : all)
        observer->changed(to);
}

static void nap(int microseconds)
{
    std::this_thread::sleep_for(std::chrono::microseconds(microseconds));
}

int main()
{
    Model model;
    Observer observers[3];
    for (Observer &observer : observers) {
        observer.model = &model;
        model.all.push_back(&observer);
    }
    std::thread sets([&] {
        for (int i = 0; i < 25; i++) {
            model.set(i);
            nap(3000 + i % 7 * 100);
        }
    });
    std::thread refreshes([&] {
        for (int i = 0; i < 25; i++) {
            observers[i % 3].refresh();
            nap(2900 + i % 5 * 130);
        }
    });
    sets.join();
    refreshes.join();
    std::puts("ended");
}
