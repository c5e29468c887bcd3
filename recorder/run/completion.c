#include "completion.h"

#include <stdio.h>
#include <stdlib.h>
#include <string.h>

#include "usage.h"

/* The words that an option takes, where these are few. */
static const struct {
    const char *option, *words;
} words_of[] = {
    {"--alarms", "all locks threads gate readers timed apart confirmed no-errors"},
    {"--on-deadlock", "tell kill exit="},
    {"--on-report", "gdb tell stop trap abort exit="},
};

static const char *choices(const char *option)
{
    for (size_t i = 0; i < sizeof words_of / sizeof *words_of; i++)
        if (strcmp(words_of[i].option, option) == 0)
            return words_of[i].words;
    return "";
}

static bool is_bash(const char *shell)
{
    return strcmp(shell, "bash") == 0;
}

static bool is_zsh(const char *shell)
{
    return strcmp(shell, "zsh") == 0;
}

bool completion_shell(const char *shell)
{
    return is_bash(shell) || is_zsh(shell) || strcmp(shell, "fish") == 0;
}

void completion_begin(const char *shell)
{
    if (is_bash(shell))
        fputs("# bash completion for record\n"
              "_record_options='\n",
            stdout);
    else if (is_zsh(shell))
        fputs("#compdef record\n_arguments -S \\\n", stdout);
    else
        fputs("# fish completion for record\nset -g __record_takes\n", stdout);
}

/* The text between apostrophes, with a backslash before these bytes. */
static void put_quoted(const char *text, const char *special)
{
    for (; *text; text++) {
        if (*text == '\'')
            fputs("'\\'", stdout);
        if (strchr(special, *text))
            putchar('\\');
        putchar(*text);
    }
}

static void put_zsh(const char *option, const char *what, bool takes, bool is_file)
{
    printf("    '%s[", option);
    put_quoted(what, "[]:");
    printf("]%s", takes ? ":word:" : "");
    if (is_file)
        fputs("_files", stdout);
    else if (*choices(option))
        printf("(%s)", choices(option));
    fputs("' \\\n", stdout);
}

static void put_fish(const char *option, const char *what, bool takes, bool is_file)
{
    bool is_long = option[1] == '-';
    if (takes)
        printf("set -a __record_takes -- %s\n", option);
    printf("complete -c record -%c %s", is_long ? 'l' : 's', option + (is_long ? 2 : 1));
    fputs(is_file ? " -r -F" : takes ? " -x" : "", stdout);
    if (*choices(option))
        printf(" -a '%s'", choices(option));
    fputs(" -d '", stdout);
    put_quoted(what, "");
    fputs("'\n", stdout);
}

void completion_option(const char *shell, const char *option, bool takes, bool is_file)
{
    char *what = usage_of(option);
    if (is_bash(shell))
        printf("%s %s %s\n", option, is_file ? "file" : takes ? "word" : "none", choices(option));
    else if (is_zsh(shell))
        put_zsh(option, what, takes, is_file);
    else
        put_fish(option, what, takes, is_file);
    free(what);
}

/* bash: the options until the program, and from there on what bash knows of that. */
static const char bash_end[] =
    "'\n"
    "_record()\n"
    "{\n"
    "    local at=1 word=${COMP_WORDS[COMP_CWORD]} option kind choices\n"
    "    COMPREPLY=()\n"
    "    while [ $at -lt $COMP_CWORD ]; do\n"
    "        case ${COMP_WORDS[at]} in\n"
    "        --) at=$((at + 1)) && break ;;\n"
    "        -*) ;;\n"
    "        *) break ;;\n"
    "        esac\n"
    "        read -r option kind choices <<<\"$(grep -e \"^${COMP_WORDS[at]} \" <<<\"$_record_options\")\"\n"
    "        [ \"$kind\" = none ] || at=$((at + 1))\n"
    "        if [ $at -eq $COMP_CWORD ]; then\n"
    "            if [ \"$kind\" = file ]; then compopt -o filenames 2>/dev/null; COMPREPLY=($(compgen -f -- \"$word\"));\n"
    "            else COMPREPLY=($(compgen -W \"$choices\" -- \"$word\")); fi\n"
    "            return\n"
    "        fi\n"
    "        at=$((at + 1))\n"
    "    done\n"
    "    if [ $at -lt $COMP_CWORD ] && declare -F _command_offset >/dev/null; then _command_offset $at\n"
    "    elif [ $at -lt $COMP_CWORD ]; then compopt -o filenames 2>/dev/null; COMPREPLY=($(compgen -f -- \"$word\"))\n"
    "    elif [ \"${word#-}\" != \"$word\" ]; then\n"
    "        COMPREPLY=($(compgen -W \"$(cut -d ' ' -f 1 <<<\"$_record_options\")\" -- \"$word\"))\n"
    "    else compopt -o filenames 2>/dev/null; COMPREPLY=($(compgen -c -- \"$word\"))\n"
    "    fi\n"
    "}\n"
    "complete -F _record record\n";

void completion_end(const char *shell)
{
    if (is_bash(shell))
        fputs(bash_end, stdout);
    else if (is_zsh(shell))
        fputs("    '*::program:_normal'\n", stdout);
    else
        fputs("complete -c record -x -a '(__fish_complete_subcommand -- $__record_takes)'\n", stdout);
}
