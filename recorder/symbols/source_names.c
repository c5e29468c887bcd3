#include "source_names.h"

#include "files.h"
#include "format.h"

#include <fnmatch.h>
#include <string.h>

enum { HASH_DIGITS = 16, WORD_MOST = 256 };

/* What brackets of an operator's name are as long as the others are left out. */
enum { OPENING = '\001', CLOSING = '\002' };

static bool is_word_byte(char byte)
{
    return (byte >= 'A' && byte <= 'Z') || (byte >= 'a' && byte <= 'z') || (byte >= '0' && byte <= '9') || byte == '_';
}

static size_t hexadecimal_digits(const char *at)
{
    return strspn(at, "0123456789abcdef");
}

static bool begins(const char *text, const char *with)
{
    return strncmp(text, with, strlen(with)) == 0;
}

static bool ends(const char *text, const char *with)
{
    size_t length = strlen(text), wanted = strlen(with);
    return length >= wanted && memcmp(text + length - wanted, with, wanted) == 0;
}

void leave_hash_out(char *name)
{
    size_t length = strlen(name), hash = HASH_DIGITS + 3;
    if (length >= hash && begins(name + length - hash, "::h")
        && hexadecimal_digits(name + length - HASH_DIGITS) == HASH_DIGITS)
        name[length - hash] = '\0';
    char *to = name;
    for (const char *from = name; *from;) {
        size_t digits = *from == '[' ? hexadecimal_digits(from + 1) : 0;
        if (digits > 0 && from[digits + 1] == ']')
            from += digits + 2;
        else
            *to++ = *from++;
    }
    *to = '\0';
}

/* `(anonymous namespace)` is no list of what a function takes. */
static void name_anonymous(char *name)
{
    static const char there[] = "(anonymous namespace)", instead[] = "{anonymous}";
    char *to = name;
    for (const char *from = name; *from;) {
        if (*from == '(' && begins(from, there)) {
            memcpy(to, instead, sizeof instead - 1);
            to += sizeof instead - 1;
            from += sizeof there - 1;
        } else {
            *to++ = *from++;
        }
    }
    *to = '\0';
}

/* The end of the last whole word `operator`, after which another byte follows; NULL where there is none. */
static char *operator_end(char *name)
{
    static const char word[] = "operator";
    size_t length = sizeof word - 1;
    char *end = NULL;
    for (char *at = strstr(name, word); at; at = strstr(at + 1, word))
        if ((at == name || !is_word_byte(at[-1])) && at[length] && !is_word_byte(at[length]))
            end = at + length;
    return end;
}

/* Brackets that belong to an operator's name. */
static void mark_operators(char *name)
{
    static const char *const brackets[] = {"<=>", "<<", ">>", "->", "<", ">"};
    for (char *at = strstr(name, "operator"); at; at = strstr(at, "operator")) {
        at += strlen("operator");
        for (size_t i = 0; i < sizeof brackets / sizeof *brackets; i++)
            if (begins(at, brackets[i])) {
                for (size_t left = strlen(brackets[i]); left > 0; left--, at++)
                    *at = *at == '<' ? OPENING : *at == '>' ? CLOSING : *at;
                break;
            }
    }
}

static void unmark_operators(char *name)
{
    for (; *name; name++)
        *name = *name == OPENING ? '<' : *name == CLOSING ? '>' : *name;
}

/*
 * Leaves out what stands in angle brackets. An opening one that isn't closed stays, as does a closing one that wasn't
 * opened: so the last open one is the last one that stands there still.
 */
static void leave_brackets_out(char *name)
{
    char *to = name;
    size_t open = 0;
    for (const char *from = name; *from; from++) {
        if (*from == '>' && open > 0) {
            while (*--to != '<')
                ;
            open--;
            continue;
        }
        open += *from == '<';
        *to++ = *from;
    }
    *to = '\0';
}

/* Where `operator()(int) const::` ends that begins there, NULL where none does. */
static const char *call_operator_end(const char *at)
{
    static const char word[] = "operator()(", behind[] = " const";
    if (!begins(at, word))
        return NULL;
    at += sizeof word - 1;
    at += strcspn(at, "()");
    if (*at++ != ')')
        return NULL;
    if (begins(at, behind))
        at += sizeof behind - 1;
    return begins(at, "::") ? at + 2 : NULL;
}

/* What call operators before the end take is left out. */
static void shorten_call_operators(char *name, char *end)
{
    static const char instead[] = "operator()::";
    char *to = name;
    for (const char *from = name; from < end;) {
        const char *after = call_operator_end(from);
        if (after && after <= end) {
            memcpy(to, instead, sizeof instead - 1);
            to += sizeof instead - 1;
            from = after;
        } else {
            *to++ = *from++;
        }
    }
    memmove(to, end, strlen(end) + 1);
}

static void shorten_operator(char *name)
{
    mark_operators(name);
    leave_brackets_out(name);
    char *last = operator_end(name);
    if (last && begins(last, "()"))
        last[2] = '\0';
    else
        (last ? last : name)[strcspn(last ? last : name, "(")] = '\0';
    if (last)
        shorten_call_operators(name, last);
    for (size_t length = strlen(name); length > 0 && name[length - 1] == ' '; length--)
        name[length - 1] = '\0';
    unmark_operators(name);
}

void shorten(char *name)
{
    leave_hash_out(name);
    name_anonymous(name);
    if (operator_end(name)) {
        shorten_operator(name);
        return;
    }
    leave_brackets_out(name);
    name[strcspn(name, "(")] = '\0';
}

void clean_name(char *name)
{
    for (; *name; name++)
        *name = *name == '"' ? '\'' : *name >= ' ' && *name <= '~' ? *name : '?';
}

void clean_word(char *word)
{
    clean_name(word);
    for (; *word; word++)
        *word = *word == ' ' ? '_' : *word;
}

static int hexadecimal_value(char digit)
{
    return digit <= '9' ? digit - '0' : digit - 'a' + 10;
}

void undo_escapes(char *word)
{
    char *to = word;
    for (const char *from = word; *from;) {
        if (*from == ESCAPE && hexadecimal_digits(from + 1) >= 2) {
            *to++ = (char)(hexadecimal_value(from[1]) << 4 | hexadecimal_value(from[2]));
            from += 3;
        } else {
            *to++ = *from++;
        }
    }
    *to = '\0';
}

const char *last_part(const char *name)
{
    for (const char *at = strstr(name, "::"); at; at = strstr(name, "::"))
        name = at + 2;
    return name;
}

/* `c++/v1/`, or `c++/12/`. */
static bool begins_headers(const char *path)
{
    if (!begins(path, "c++/"))
        return false;
    path += 4;
    size_t version = begins(path, "v1/") ? 2 : strspn(path, "0123456789.");
    return version > 0 && path[version] == '/';
}

static bool is_header(const char *file)
{
    static const char folder[] = "/include/";
    for (const char *at = strstr(file, folder); at; at = strstr(at + 1, folder)) {
        const char *within = at + sizeof folder - 1, *next = strchr(within, '/');
        if (begins_headers(within) || (next && next > within && begins_headers(next + 1)))
            return true;
    }
    return false;
}

/* The raw locks of lock_api, which the crate's macros make in the program, and what lock_api itself does with them. */
static bool is_of_lock_api(const char *name, const char *file)
{
    bool is_of_crate = strstr(name, " as lock_api::") || strstr(file, "/lock_api-") || strstr(file, "/lock_api/src/");
    return is_of_crate && strstr(file, ".rs:");
}

/* The header witness.hpp, or the crate witness. */
static bool is_of_annotations(const char *name, const char *file)
{
    return strstr(file, "/witness.hpp:") || (begins(name + (*name == '<'), "witness::") && strstr(file, ".rs:"))
        || is_of_lock_api(name, file);
}

bool is_of_library(const char *name, const char *file)
{
    if (begins(name, "__gthread") || begins(name, "__glibcxx_rwlock") || is_of_annotations(name, file))
        return true;
    if (is_header(file) || strstr(file, "/libstdc++-v3/") || strstr(file, "/libcxx/"))
        return true;
    const char *rest = begins(file, "/rustc/") ? strchr(file + 7, '/') : NULL;
    return rest && begins(rest, "/library/");
}

bool is_callback(const char *mangled)
{
    static const char *const within[] = {"$_", "UlvE", "UlR", "UlT", "UlP", "PF", "_Function_handler",
        "__function6__func", "_M_invoke", "__invoke"};
    for (size_t i = 0; i < sizeof within / sizeof *within; i++)
        if (strstr(mangled, within[i]))
            return true;
    return false;
}

static bool is_passed_over(const char *word, const char *patterns)
{
    char pattern[WORD_MOST];
    for (const char *at = patterns; *at; at += *at == ':') {
        size_t length = strcspn(at, ":");
        if (length > 0 && length < sizeof pattern) {
            memcpy(pattern, at, length);
            pattern[length] = '\0';
            if (fnmatch(pattern, word, FNM_NOESCAPE) == 0)
                return true;
        }
        at += length;
    }
    return false;
}

static bool ends_as_one_of(const char *word, const char *const *with, size_t count)
{
    for (size_t i = 0; i < count; i++)
        if (ends(word, with[i]))
            return true;
    return false;
}

bool is_wrapper(const char *name, const char *patterns)
{
    static const char *const others[] = {NO_WRAPPER_ENDS};
    static const char *const locks[] = {WRAPPER_ENDS};
    char end[32];
    name = last_part(name);
    if (patterns && is_passed_over(name, patterns))
        return true;
    size_t length = strlen(name), kept = length < sizeof end - 1 ? length : sizeof end - 1;
    for (size_t i = 0; i <= kept; i++) {
        char byte = name[length - kept + i];
        end[i] = byte >= 'A' && byte <= 'Z' ? (char)(byte - 'A' + 'a') : byte;
    }
    return !ends_as_one_of(end, others, sizeof others / sizeof *others)
        && ends_as_one_of(end, locks, sizeof locks / sizeof *locks);
}

bool is_thread_begin(const char *name)
{
    static const char *const begin[] = {"_start", "start_thread", "clone", "clone3", "__clone", "__clone3"};
    for (size_t i = 0; i < sizeof begin / sizeof *begin; i++)
        if (strcmp(name, begin[i]) == 0)
            return true;
    return begins(name, "__libc_start_");
}

bool is_c_library(const char *path)
{
    return begins(file_base(path), "libc.so.");
}

bool is_library_object(const char *path)
{
    const char *name = file_base(path);
    return begins(name, "libstdc++.so") || begins(name, "libc++.so") || begins(name, "libc++abi.so");
}
