# Tests of lines with several locks: their columns tell their types apart. Read by `run`, whose functions it uses.

if wanted columns && has_libdw columns; then
    for compiler in g++ clang++; do
        command -v $compiler >/dev/null || continue
        for level in -O0 -O1 -O2; do
            cp "$here/oneline.cc" . && $compiler -g $level -pthread -o oneline oneline.cc
            "$record" -o kept -- ./oneline 2>recorded.err
            diff "$here/oneline.want" recorded.err && [ "$(grep -c '^init .*"main([pq])"$' kept)" -eq 2 ]
            tell columns "two locks on a line ($compiler $level)" $?
        done
        # By lines a name has its column where another call stands on that line. Compilers mean its name, or its bracket.
        for one in 5 23; do
            for other in 37 55; do
                echo "\"oneline.cc:34:$one\" \"oneline.cc:34:$other\""
            done
        done >list
        RECORDER_DEPTH=1 "$record" --ignore list -- ./oneline 2>recorded.err
        grep -q '^record: 1 report, ' recorded.err && ! grep -q 'main(p)' recorded.err
        tell columns "their names by lines and columns ($compiler)" $?
    done
fi
