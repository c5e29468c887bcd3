/*
 * accounts CASE: std::mutex in objects on the heap, which no call makes: their first uses are in several functions.
 *
 * `both`: one function locks an account and then an audit, another an audit and then another account. No two objects are
 * locked both ways, but those of their classes are: a reversal.
 * `members`, `classes`, `globals`, `guards`, `elements`, `lockers`: what is locked both ways are other members, members of one
 * name of other classes, locks that variables name, locks that an object only refers to, elements of an array that have
 * constants for their numbers, and locks of a class that others lock by: nothing.
 */
#include <cstring>
#include <memory>
#include <mutex>
#include <vector>

struct Account {
    std::mutex mutex;
    long balance = 0;
};

struct Audit {
    std::mutex mutex;
    long lines = 0;
};

/* Two members of one class. */
struct Page {
    std::mutex front, back;
};

struct Outer {
    Page page;
    std::mutex mutex;
};

/* It has no lock, but refers to one. */
class Holder {
    std::mutex &mutex;

public:
    explicit Holder(std::mutex &other) : mutex(other)
    {
        mutex.lock();
    }
    ~Holder()
    {
        mutex.unlock();
    }
};

/* A lock for others to use. */
class Gate {
    std::recursive_mutex mutex;

public:
    void enter()
    {
        mutex.lock();
    }
    void leave()
    {
        mutex.unlock();
    }
};

enum { READ, WRITE };

struct Pipe {
    std::mutex ends[2];
};

static std::unique_ptr<Account> cash, credit;

static void deposit(Account &account, Audit &audit)
{
    std::lock_guard<std::mutex> outer(account.mutex);
    std::lock_guard<std::mutex> inner(audit.mutex);
    account.balance += ++audit.lines;
}

static void report(Audit &audit, std::vector<std::unique_ptr<Account>> &accounts)
{
    std::lock_guard<std::mutex> outer(audit.mutex);
    for (size_t i = 0; i < accounts.size(); i++) {
        std::unique_lock<std::mutex> inner(accounts[i]->mutex);
        audit.lines += accounts[i]->balance;
    }
}

static void front_first(Page &page, Audit &audit)
{
    std::lock_guard<std::mutex> outer(page.front);
    std::lock_guard<std::mutex> inner(audit.mutex);
    audit.lines++;
}

static void back_last(Audit &audit, Page *page)
{
    audit.mutex.lock();
    page->back.lock();
    page->back.unlock();
    audit.mutex.unlock();
}

static void inner_last(Audit &audit, Outer &outer)
{
    std::lock_guard<std::mutex> first(audit.mutex);
    std::lock_guard<std::mutex> second(outer.page.front);
}

static void other_class(Audit &audit, Outer *outer)
{
    std::lock_guard<std::mutex> first(audit.mutex);
    std::lock_guard<std::mutex> second(outer->mutex);
}

static void cash_first()
{
    std::lock_guard<std::mutex> first(cash->mutex);
    std::lock_guard<std::mutex> second(credit->mutex);
}

static void cash_first_again()
{
    cash->mutex.lock();
    credit->mutex.lock();
    credit->mutex.unlock();
    cash->mutex.unlock();
}

static void hold_first(std::mutex &one, std::mutex &other)
{
    Holder first(one);
    Holder second(other);
}

static void hold_again(std::mutex &one, std::mutex &other)
{
    Holder first(one);
    Holder second(other);
}

static void read_first(Pipe &pipe, Audit &audit)
{
    std::lock_guard<std::mutex> outer(pipe.ends[READ]);
    std::lock_guard<std::mutex> inner(audit.mutex);
}

static void write_last(Pipe &pipe, Audit &audit)
{
    std::lock_guard<std::mutex> outer(audit.mutex);
    std::lock_guard<std::mutex> inner(pipe.ends[WRITE]);
}

static void enter_both(Gate &outer, Gate &inner)
{
    outer.enter();
    inner.enter();
    inner.leave();
    outer.leave();
}

int main(int, char **words)
{
    auto account = std::make_unique<Account>();
    auto audit = std::make_unique<Audit>(), other = std::make_unique<Audit>();
    auto page = std::make_unique<Page>(), more = std::make_unique<Page>();
    auto outer = std::make_unique<Outer>();
    if (std::strcmp(words[1], "both") == 0) {
        std::vector<std::unique_ptr<Account>> accounts;
        accounts.push_back(std::make_unique<Account>());
        deposit(*account, *audit);
        report(*other, accounts);
    } else if (std::strcmp(words[1], "members") == 0) {
        front_first(*page, *audit);
        back_last(*other, more.get());
        inner_last(*other, *outer);
    } else if (std::strcmp(words[1], "classes") == 0) {
        deposit(*account, *audit);
        other_class(*other, outer.get());
    } else if (std::strcmp(words[1], "globals") == 0) {
        cash = std::make_unique<Account>();
        credit = std::make_unique<Account>();
        cash_first();
        cash = std::make_unique<Account>();
        cash_first_again();
    } else if (std::strcmp(words[1], "elements") == 0) {
        auto pipe = std::make_unique<Pipe>();
        read_first(*pipe, *audit);
        write_last(*pipe, *other);
    } else if (std::strcmp(words[1], "lockers") == 0) {
        auto registry = std::make_unique<Gate>(), entry = std::make_unique<Gate>();
        enter_both(*registry, *entry);
    } else {
        hold_first(account->mutex, audit->mutex);
        hold_again(other->mutex, outer->mutex);
    }
}
