/* Prints what is made of some names of functions and words with escapes, and which files are taken for a library's. */
#include <stdio.h>
#include <stdlib.h>
#include <string.h>

#include "source_names.h"

static void print_short(const char *name)
{
    char *kept = strdup(name);
    if (!kept)
        exit(2);
    shorten(kept);
    puts(kept);
    free(kept);
}

static void print_word(const char *word)
{
    char *kept = strdup(word);
    if (!kept)
        exit(2);
    undo_escapes(kept);
    puts(kept);
    free(kept);
}

int main(void)
{
    static const char *const names[] = {
        "main::{lambda()#1}::operator()() const",
        "main::{lambda()#1}::operator()() const::{lambda(int)#2}::operator()(int) const",
        "main::$_0::operator()(int, std::vector<int>) const",
        "Matrix<int>::operator<<(int) const",
        "bool operator< <int>(int, Matrix<int>)",
        "Matrix<int>::operator->() const",
        "Matrix<int>::operator[](unsigned long)",
        "std::vector<int, std::allocator<int> >::push_back(int const&)",
        "(anonymous namespace)::take(int)",
        "my_operator_table(int)",
        "pool::Pool::run::h0123456789abcdef",
        "pool[8a3c1f2e5d6b7a90]::main",
    };
    static const char *const files[][2] = {
        {"", "/rustc/9fc6b43126469e3858e2fe86cafb4f0fd5068869/library/core/src/ops/function.rs:250"},
        {"", "/usr/include/c++/12/bits/std_mutex.h:100"},
        {"", "/usr/lib/llvm-14/bin/../include/c++/v1/__mutex_base:91"},
        {"", "/usr/include/x86_64-linux-gnu/c++/12/bits/gthr-default.h:749"},
        {"", "/home/user/c++/2024/main.cc:9"},
        {"std::hash<Key>::operator()(Key const&) const", "/home/user/key.cc:9"},
        {"witness::annotated<Spin>::lock()", "/usr/include/witness.hpp:100"},
        {"<witness::mutex::Mutex<T>>::lock", "/home/user/witness/src/mutex.rs:9"},
        {"witness::mutex::Mutex<T>::lock", "/home/user/witness/src/mutex.rs:9"},
        {"witness::take", "/home/user/take.cc:9"},
        {"<pool::locks::RawMutex as lock_api::mutex::RawMutex>::lock", "/home/user/rust/src/raw.rs:62"},
        {"lock_api::mutex::Mutex<R, T>::lock", "/usr/share/cargo/registry/lock_api-0.4.9/src/mutex.rs:214"},
        {"pool::raw::take", "/home/user/pool/src/raw.rs:9"},
        {"pool::witness::take", "/home/user/take.rs:9"},
    };
    static const char *const words[] = {"a%20b%25%2d", "%c3%a9%", "100%2", "%zz%2g%2A", "%2525"};
    for (size_t i = 0; i < sizeof names / sizeof *names; i++)
        print_short(names[i]);
    for (size_t i = 0; i < sizeof words / sizeof *words; i++)
        print_word(words[i]);
    for (size_t i = 0; i < sizeof files / sizeof *files; i++)
        printf("%d\n", is_of_library(files[i][0], files[i][1]));
    return 0;
}
