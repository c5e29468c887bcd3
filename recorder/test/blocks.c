/*
 * blocks CASE: locks in blocks of memory.
 *
 * `members`: a loop makes the two mutexes of an object, and all objects are locked in one order: nothing. `crossed`: two
 * threads lock them in both orders: a reversal of the two.
 * `places`: one thread locks an account and an audit, another an audit and another account, by a function that only locks.
 * No call makes them, and each object is first used in the one or in the other: a reversal of the two kinds.
 * `row`: an array of more objects than are told apart, each with one mutex that a loop makes: two of them are of one type.
 * `free`: a thread gives back what another has taken, and something else comes in its place: nothing.
 * `grown`: as `places`, where the second account has grown before it is used.
 * `moved`: a block that moves leaves its locks. What is made at the old address is of another kind, in its own order: nothing.
 * `lost`: as `members`, of blocks that were taken long before, with many others after them.
 * `child`: as `places`, the first half before a fork, the second one in the child: the child knows its own order alone.
 * `child both`: both in the child, of blocks that its parent has taken: a reversal.
 */
#include <pthread.h>
#include <stdio.h>
#include <stdlib.h>
#include <string.h>
#include <sys/wait.h>
#include <unistd.h>

struct page {
    long number;
    pthread_mutex_t front;
    long lines;
    pthread_mutex_t back;
};

struct account {
    long balance;
    pthread_mutex_t own;
};

struct audit {
    char name[64];
    pthread_mutex_t own;
};

static const pthread_mutex_t unused = PTHREAD_MUTEX_INITIALIZER;

static struct page *made(struct page *page)
{
    pthread_mutex_t *all[] = {&page->front, &page->back};
    for (int i = 0; i < 2; i++)
        pthread_mutex_init(all[i], NULL);
    return page;
}

static struct page *new_page(void)
{
    return made(malloc(sizeof(struct page)));
}

static struct account *new_account(void)
{
    struct account *account = calloc(1, sizeof *account);
    memcpy(&account->own, &unused, sizeof unused);
    return account;
}

static struct audit *new_audit(void)
{
    struct audit *audit = malloc(sizeof *audit);
    memcpy(&audit->own, &unused, sizeof unused);
    return audit;
}

static void enter(pthread_mutex_t *mutex)
{
    pthread_mutex_lock(mutex);
}

static void leave(pthread_mutex_t *mutex)
{
    pthread_mutex_unlock(mutex);
}

static void deposit(struct account *account, struct audit *audit)
{
    enter(&account->own);
    enter(&audit->own);
    leave(&audit->own);
    leave(&account->own);
}

static void report(struct audit *audit, struct account *account)
{
    enter(&audit->own);
    enter(&account->own);
    leave(&account->own);
    leave(&audit->own);
}

static void nest(pthread_mutex_t *outer, pthread_mutex_t *inner)
{
    pthread_mutex_lock(outer);
    pthread_mutex_lock(inner);
    pthread_mutex_unlock(inner);
    pthread_mutex_unlock(outer);
}

static void by_thread(void *(*routine)(void *), void *argument)
{
    pthread_t thread;
    pthread_create(&thread, NULL, routine, argument);
    pthread_join(thread, NULL);
}

static void *turn(void *page)
{
    nest(&((struct page *)page)->back, &((struct page *)page)->front);
    return NULL;
}

static void members(const char *how)
{
    struct page *pages[3];
    for (int i = 0; i < 3; i++) {
        pages[i] = new_page();
        nest(&pages[i]->front, &pages[i]->back);
    }
    if (strcmp(how, "crossed") == 0)
        by_thread(turn, pages[1]);
}

/* The numbers by which it was asked; they are read, so that nothing is inlined away. */
static volatile int objects = 40;

static void lost(void)
{
    enum { PAGES = 8, OTHERS = 60000 };
    struct page *pages[PAGES];
    for (int i = 0; i < PAGES; i++)
        pages[i] = malloc(sizeof *pages[i]);
    for (int i = 0; i < OTHERS; i++)
        memset(malloc(48), i, 48);
    for (int i = 0; i < PAGES; i++) {
        made(pages[i]);
        nest(&pages[i]->front, &pages[i]->back);
    }
}

static void row(void)
{
    struct account *accounts = malloc(objects * sizeof *accounts);
    for (int i = 0; i < objects; i++)
        pthread_mutex_init(&accounts[i].own, NULL);
    nest(&accounts[2].own, &accounts[30].own);
}

/* Two of each, which come from one place each. */
static struct account *accounts[2];
static struct audit *audits[2];

static void take(void)
{
    for (int i = 0; i < 2; i++) {
        accounts[i] = new_account();
        audits[i] = new_audit();
    }
}

static void places(void)
{
    take();
    deposit(accounts[0], audits[0]);
    report(audits[1], accounts[1]);
}

static void grown(void)
{
    take();
    deposit(accounts[0], audits[0]);
    accounts[1] = realloc(accounts[1], 1 << 20);
    report(audits[1], accounts[1]);
}

static void *give_back(void *block)
{
    free(block);
    return NULL;
}

static void freed(void)
{
    for (int i = 0; i < 3; i++) {
        struct page *page = new_page();
        nest(&page->front, &page->back);
        by_thread(give_back, page);
        struct { pthread_mutex_t inner; char between[24]; pthread_mutex_t outer; } *other = malloc(sizeof *other);
        pthread_mutex_init(&other->outer, NULL);
        pthread_mutex_init(&other->inner, NULL);
        nest(&other->outer, &other->inner);
        free(other);
    }
}

static void moved(void)
{
    struct page *page = new_page();
    nest(&page->front, &page->back);
    void *before = page;
    page = realloc(page, 1 << 20);
    struct { long number; pthread_mutex_t inner; long between; pthread_mutex_t outer; } *other = malloc(sizeof *other);
    memcpy(&other->inner, &unused, sizeof unused);
    memcpy(&other->outer, &unused, sizeof unused);
    nest(&other->outer, &other->inner);
    printf("%s\n", before == other ? "in its place" : "elsewhere");
}

static void child(const char *how)
{
    take();
    if (strcmp(how, "both") != 0)
        deposit(accounts[0], audits[0]);
    pid_t process = fork();
    if (process == 0) {
        if (strcmp(how, "both") == 0)
            deposit(accounts[0], audits[0]);
        report(audits[1], accounts[1]);
        _exit(0);
    }
    waitpid(process, NULL, 0);
}

int main(int count, char **words)
{
    const char *what = count > 1 ? words[1] : "";
    if (strcmp(what, "members") == 0 || strcmp(what, "crossed") == 0)
        members(what);
    else if (strcmp(what, "places") == 0)
        places();
    else if (strcmp(what, "lost") == 0)
        lost();
    else if (strcmp(what, "row") == 0)
        row();
    else if (strcmp(what, "free") == 0)
        freed();
    else if (strcmp(what, "grown") == 0)
        grown();
    else if (strcmp(what, "moved") == 0)
        moved();
    else if (strcmp(what, "child") == 0)
        child(count > 2 ? words[2] : "");
    return 0;
}
