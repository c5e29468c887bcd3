# Tests of what `record` has for those who sit before it: colours at a terminal, and options that shells complete. Read by `run`.

# typed WORDS..: what `record` writes at a terminal, to `typed`.
typed() {
    timeout 300 script -qec "$*" /dev/null >typed 2>&1 </dev/null
}

# coloured FILE: whether the headings there are in colour, and no other line.
coloured() {
    tr -d '\r' <"$1" | tr '\033' '~' | grep '~' >headings
    printf '%s\n' '~[1;31mlock order reversal:~[0m' '~[1mestablished order:~[0m' '~[1mcallers:~[0m' | diff - headings
}

if wanted shells; then
    compile reversal
    RECORD_FRAMES=4 recorded_by "$record" --color -- ./reversal && coloured recorded.err
    tell shells "headings in colour" $?
    RECORD_FRAMES=4 recorded_by "$record" --color=always --log-file log -- ./reversal && coloured log
    tell shells "and in a log" $?
    for words in '' --color=auto --color=never; do
        RECORD_FRAMES=4 recorded_by "$record" $words -- ./reversal && ! grep -q "$(printf '\033')" recorded.err && said 0 '^lock order reversal:$'
        tell shells "no colour where nobody looks on ($words)" $?
    done
    recorded_by "$record" --color=often -- ./reversal
    said 2 'color is auto, always or never, not often'
    tell shells "no other word" $?
    if command -v script >/dev/null 2>&1; then
        typed env -u NO_COLOR TERM=xterm RECORD_FRAMES=4 "$record" -- ./reversal && coloured typed
        tell shells "at a terminal" $?
        for setting in 'NO_COLOR=1 TERM=xterm' 'TERM=dumb'; do
            typed env -u NO_COLOR $setting RECORD_FRAMES=4 "$record" -- ./reversal && ! grep -q "$(printf '\033')" typed &&
                tr -d '\r' <typed | grep -qx 'lock order reversal:'
            tell shells "at a terminal with $setting" $?
        done
    else
        echo "left out  shells: there is no script to make a terminal"
    fi
fi

# completed WORDS..: what bash offers in place of the last of these words.
completed() {
    bash --norc -c 'source ./completion.bash && COMP_WORDS=("$@") && COMP_CWORD=$(($# - 1)) && _record 2>/dev/null; printf "%s\n" "${COMPREPLY[@]}"' \
        bash "$@" | sort | tr '\n' ' '
}

if wanted shells; then
    "$record" --help | sed -n 's/^  \(-[-a-z]*\).*/\1/p' | sort >options
    for shell in bash zsh fish; do
        "$recorder/../tools/completion" $shell >completion.$shell
        case $shell in
        bash) sed -n 's/^\(-[^ ]*\) .*/\1/p' ;;
        zsh) sed -n "s/^    '\(-[-a-z]*\)\[.*/\1/p" ;;
        fish) sed -n 's/^complete -c record -l \([^ ]*\) .*/--\1/p; s/^complete -c record -s \([^ ]*\) .*/-\1/p' ;;
        esac <completion.$shell | grep -vx -e -h | sort | diff options -
        tell shells "$shell completes each option that the help names" $?
    done
    recorded_by "$recorder/../tools/completion" csh
    said 2 'completion is bash, zsh or fish, not csh'
    tell shells "another shell" $?
    mkdir -p files && : >files/one && : >files/other
    if command -v bash >/dev/null; then
        [ "$(completed record --on-)" = "--on-deadlock --on-report " ] && [ "$(completed record --on-deadlock '')" = "exit= kill tell " ] &&
            [ "$(completed record --ignore files/o)" = "files/one files/other " ] && [ "$(completed record --skip cache --sem)" = "--semaphores " ] &&
            [ "$(completed record --quiet -- ls files/ot)" = "files/other " ]
        tell shells "bash completes options, their words, files, and what the program takes" $?
    fi
    if command -v fish >/dev/null; then
        for line in '--on-:--on-deadlock --on-report' '--on-deadlock :exit= kill tell' '--skip cache --sem:--semaphores' '--ignore files/on:files/one' 'ls --colo:--color'; do
            timeout 60 fish --no-config -c "source ./completion.fish; complete -C 'record ${line%%:*}'" | cut -f 1 | sort | tr '\n' ' ' >offered
            [ "$(cat offered)" = "${line#*:} " ]
            tell shells "fish completes ${line%%:*}" $?
        done
    else
        echo "left out  shells: there is no fish"
    fi
    if command -v zsh >/dev/null; then
        mkdir -p functions && cp completion.zsh functions/_record && zsh -f "$here/shells/offered.zsh" "$work/functions" 'record --on-' >offered &&
            grep -q -e '--on-deadlock *-- where threads' offered && grep -q -e '--on-report *-- what the program' offered
        tell shells "zsh does" $?
    else
        echo "left out  shells: there is no zsh"
    fi
fi

# What editors read, as docs/recording.md has it.
if wanted shells; then
    document=$here/../../docs/recording.md
    RECORD_FRAMES=4 recorded_by "$record" -- ./reversal
    printf '%s\n' 'reversal.c:18: 1st "journal" (journal, sleep mutex)' 'reversal.c:19: 2nd "pool" (pool, sleep mutex)' \
        'reversal.c:10: "pool" -> "journal"' >places
    if command -v vim >/dev/null; then
        timeout 60 vim -N -u NONE -es -c "$(sed -n 's/^    \(set errorformat=.*\)/\1/p' "$document")" -c 'cgetfile recorded.err' \
            -c 'call writefile(map(filter(getqflist(), "v:val.valid"), "bufname(v:val.bufnr) .. \":\" .. v:val.lnum .. \": \" .. v:val.text"), "found")' \
            -c 'qa!' </dev/null >/dev/null 2>&1
        diff places found
        tell shells "vim goes through the places" $?
    else
        echo "left out  shells: there is no vim"
    fi
    if command -v python3 >/dev/null; then
        python3 - "$document" recorded.err >found <<'END'
import json, re, sys
text = open(sys.argv[1]).read()
matcher = json.loads(text[text.index('    {\n      "owner"'):].split("\n\n")[0])["pattern"]
for line in open(sys.argv[2]):
    match = re.search(matcher["regexp"], line.rstrip("\n"))
    if match:
        print("%s:%s: %s" % (match[matcher["file"]], match[matcher["line"]], match[matcher["message"]]))
END
        diff places found
        tell shells "the problem matcher finds the places" $?
    fi
fi
