// absl::Mutex under witness::annotated: a reversal of two, one of them by readers, and a wait for a condition with a further
// mutex held.
#include <mutex>

#include <absl/synchronization/mutex.h>
#include <absl/time/time.h>
#include <witness.hpp>

using Mutex = witness::annotated<absl::Mutex>;

static Mutex accounts, journal;

int main()
{
    absl::CondVar paid;
    absl::SetMutexDeadlockDetectionMode(absl::OnDeadlockCycle::kIgnore);
    accounts.lock_shared();
    {
        std::lock_guard<Mutex> guard(journal);
    }
    accounts.unlock_shared();
    std::lock_guard<Mutex> guard(journal);
    std::lock_guard<Mutex> inner(accounts);
    journal.waits([&](absl::Mutex &lock) { paid.WaitWithTimeout(&lock, absl::Milliseconds(1)); });
    return 0;
}
