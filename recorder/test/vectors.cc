/*
 * vectors CASE: std::mutex in objects that a vector's block has, which no call makes.
 *
 * `many`: of a hundred objects two are locked one after the other, by a line that doesn't tell the member: they are of one type.
 * `grown`: a vector that grows has them in one block after the other: nothing is locked in both orders.
 * `both`: one function locks an account and a page, another a page and another account, each by a function that only locks.
 * The objects come by new, each from one place: a reversal.
 */
#include <cstring>
#include <deque>
#include <memory>
#include <mutex>
#include <vector>

struct Account {
    long balance = 0;
    std::mutex mutex;
};

struct Page {
    std::mutex front, back;
    long lines = 0;
};

static void enter(std::mutex *mutex)
{
    mutex->lock();
}

static void leave(std::mutex *mutex)
{
    mutex->unlock();
}

static void nest(std::mutex *outer, std::mutex *inner)
{
    enter(outer);
    enter(inner);
    leave(inner);
    leave(outer);
}

static void many()
{
    std::vector<Account> accounts(100);
    for (auto &account : accounts) {
        enter(&account.mutex);
        leave(&account.mutex);
    }
    nest(&accounts[30].mutex, &accounts[60].mutex);
}

static void grown()
{
    std::vector<std::unique_ptr<Account>> accounts;
    std::deque<Page> pages;
    for (int i = 0; i < 200; i++) {
        accounts.emplace_back(new Account);
        pages.emplace_back();
        nest(&accounts[0]->mutex, &pages[0].front);
    }
}

static void deposit(Account *account, Page *page)
{
    nest(&account->mutex, &page->back);
}

static void report(Page *page, Account *account)
{
    nest(&page->back, &account->mutex);
}

static void both()
{
    Account *accounts[2];
    Page *pages[2];
    for (int i = 0; i < 2; i++) {
        accounts[i] = new Account;
        pages[i] = new Page;
    }
    deposit(accounts[0], pages[0]);
    report(pages[1], accounts[1]);
}

int main(int, char **words)
{
    if (std::strcmp(words[1], "many") == 0)
        many();
    else if (std::strcmp(words[1], "grown") == 0)
        grown();
    else
        both();
}
