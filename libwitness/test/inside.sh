# What the library does inside a program: read by `run`, whose functions it uses.

if wanted malloc; then
    compile own_malloc $linked && WITNESS=1 timeout 100 ./own_malloc >out 2>err
    [ $? -eq 0 ] && [ "$(cat out)" = reversal ]
    tell malloc "locks inside the program's malloc" $?
fi

if wanted leaves; then
    compile jumps $linked && ./jumps >out 2>err
    printf '%s\n' 1 2 '0 0' | diff - out
    tell leaves "the program's function leaves by a jump" $?
    compile cancelled $linked && ./cancelled >out 2>err
    [ "$(cat out)" = "2 cancelled 0" ]
    tell leaves "no thread is cancelled at a report" $?
fi

if wanted forks; then
    compile forks $linked && WITNESS=1 ./forks 2>err
    awk '/^lock order reversal:$/ { print "reversal" } /^(child|parent)/ { print }
        /^ 1st/ { print $2 } /^ 2nd/ { print $2 }' err >seen
    printf '%s\n' 'child: so far none' reversal '"index_lock"' '"pool"' parent reversal '"journal"' '"pool"' | diff - seen
    tell forks "a child of fork begins anew" $?
fi
