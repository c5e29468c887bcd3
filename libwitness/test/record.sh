# The library in the recorder's place, by `record`: read by `run`, whose functions it uses.

if wanted record && [ ! -x "$program" ]; then
    echo "left out  record: $program isn't built"
elif wanted record; then
    compile reversal
    record="env WITNESS=$program LIBWITNESS=$lib/libwitness.so.1 RECORD_FRAMES=1 $top/recorder/record"
    $record -- true 2>/dev/null
    for way in exit=5:5 abort:134 trap:133; do
        $record --on-report "${way%:*}" -- ./reversal 2>err >out
        [ $? -eq "${way#*:}" ] && [ "$(grep -c '^lock order reversal:$' err)" -eq 1 ] &&
            grep -q '^ 2nd "pool" (pool, sleep mutex) @ reversal.c:19$' err && grep -q '^record: 1 report, ' err
        tell record "--on-report ${way%:*}" $?
    done
    env WITNESS="$program" LIBWITNESS="$lib/libwitness.so.1" RECORD_FRAMES=2 "$top/recorder/record" --on-report exit=5 -- ./reversal 2>err
    grep -q '^single locks: both orders, the same locks, threads [0-9]* and [0-9]*; apart: ' err
    tell record "the single locks of a report that ends it" $?
    $record --on-report tell -- ./reversal 2>err && diff "$top/recorder/test/reversal.want" err
    tell record "--on-report tell" $?
    $record --on-report none -- ./reversal 2>err
    [ $? -eq 2 ] && grep -q '^record: --on-report is gdb, tell, stop, trap, abort or exit=N' err
    tell record "a word that isn't one" $?
    LIBWITNESS=none WITNESS=$program "$top/recorder/record" --on-report abort -- ./reversal 2>err
    [ $? -eq 126 ] && grep -q "libwitness, which isn't built" err
    tell record "no library" $?
    if command -v gdb >/dev/null 2>&1; then
        printf 'run\nkill\n' | $record --on-report gdb -- ./reversal >out 2>err
        grep -q '^19.*pthread_mutex_lock(&pool);' out && grep -q '^lock order reversal:$' err && ! grep -q 'nothing is known' err
        tell record "--on-report gdb stands at the line" $?
    else
        echo "left out  record: there is no gdb"
    fi
fi
