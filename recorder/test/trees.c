/*
 * A library whose function copies trees. It holds the tree's lock and takes the copy's, which nobody else knows yet. Built with
 * LIBRARY it is that, where nobody else sees tree_new but with SHOWN; else a program that copies a tree, and does other things
 * where a word asks for it.
 */
#include <pthread.h>
#include <stdlib.h>
#include <string.h>

struct tree {
    pthread_mutex_t mutex;
    int values;
};

struct tree *tree_begin(void);
void tree_add(struct tree *tree, int value);
struct tree *tree_clone(struct tree *tree);

#ifdef LIBRARY

#ifndef SHOWN
#define SHOWN __attribute__((visibility("hidden")))
#endif

SHOWN struct tree *tree_new(void);

__attribute__((noinline)) static struct tree *made(void)
{
    struct tree *tree = calloc(1, sizeof *tree);
    if (!tree)
        abort();
    pthread_mutex_init(&tree->mutex, NULL);
    return tree;
}

__attribute__((noinline)) struct tree *tree_new(void)
{
    struct tree *tree = made();
    return tree;
}

struct tree *tree_begin(void)
{
    struct tree *tree = tree_new();
    return tree;
}

void tree_add(struct tree *tree, int value)
{
    pthread_mutex_lock(&tree->mutex);
    tree->values += value;
    pthread_mutex_unlock(&tree->mutex);
}

struct tree *tree_clone(struct tree *tree)
{
    struct tree *clone = tree_new();
    pthread_mutex_lock(&tree->mutex);
    tree_add(clone, tree->values);
    pthread_mutex_unlock(&tree->mutex);
    return clone;
}

#else

static pthread_mutex_t own = PTHREAD_MUTEX_INITIALIZER, other = PTHREAD_MUTEX_INITIALIZER;

/* Two trees at once, by no function of the library. */
static void move_values(struct tree *from, struct tree *to)
{
    pthread_mutex_lock(&from->mutex);
    tree_add(to, from->values);
    pthread_mutex_unlock(&from->mutex);
}

static void take(pthread_mutex_t *first, pthread_mutex_t *second)
{
    pthread_mutex_lock(first);
    pthread_mutex_lock(second);
    pthread_mutex_unlock(second);
    pthread_mutex_unlock(first);
}

int main(int argc, char **argv)
{
    struct tree *tree = tree_begin(), *another = tree_begin();
    if (argc > 1 && strcmp(argv[1], "moves") == 0)
        move_values(tree, another);
    struct tree *clone = tree_clone(tree);
    if (argc > 1 && strcmp(argv[1], "back") == 0)
        move_values(clone, tree);
    if (argc > 1 && strcmp(argv[1], "own") == 0) {
        take(&own, &other);
        take(&other, &own);
    }
    return 0;
}

#endif
