# What a program says and asks: read by `run`, whose functions it uses.

if wanted asserts; then
    compile asserts $linked && WITNESS=1 ./asserts 2>err | told >out
    diff "$here/asserts.want" out
    tell asserts "what holds isn't told, and all else is" $?
    compile asserts $linked && ./asserts 2>err | sort | uniq -c >asleep && ! grep -q 'kind' asleep && [ ! -s err ]
    tell asserts "nothing where the library sleeps" $?
fi

if wanted orders; then
    compile ordered $linked
    ./ordered file 2>err && [ "$(grep -c '^lock order reversal:$' err)" -eq 2 ] && grep -q '^acquiring duplicate' err
    tell orders "without a file" $?
    WITNESS_ORDERS="$here/orders.txt" ./ordered file 2>err
    told <err | diff "$here/ordered.want" -
    tell orders "a list, blessed pairs and a type whose duplicates are all right, from a file" $?
    printf '%s\n' 'order mtx "pool" rw' 'bless "left"' 'order mtx "pool" mtx "journal"' 'left right' >wrong
    WITNESS_ORDERS=wrong ./ordered file 2>err
    [ "$(sed -n "s/^witness: wrong: line \([0-9]\) isn't .*: it is passed over\$/\1/p" err | tr '\n' ' ')" = "1 2 4 " ] &&
        grep -q '^ "pool" -> "journal" @ listed$' err
    tell orders "lines that are wrong are told, and the others are used" $?
    WITNESS_ORDERS=none ./ordered file 2>err && grep -q "^witness: none can't be read: WITNESS_ORDERS names nothing$" err
    tell orders "a file that isn't there" $?
    printf '%s\n' 'order mtx "pool" mtx "journal"' 'order mtx "journal" mtx "pool"' >wrong
    WITNESS_ORDERS=wrong ./ordered file 2>err
    grep -q '^witness: list 2 of WITNESS_ORDERS is refused (F20): no list is known$' err &&
        [ "$(grep -c '^lock order reversal:$' err)" -eq 2 ]
    tell orders "a list against another one" $?
    ./ordered defined >out 2>err
    printf '%s\n' 1 1 0 0 | diff - out && told <err | grep -v '^asked by\|^ [a-z_]* (ordered)$' | diff "$here/defined.want" -
    tell orders "orders that the program names" $?
    ./ordered watch >out 2>err
    printf '%s\n' 1 1 0 1 0 | diff - out && [ "$(sed -n 's/^ [12].. \("[a-z]*"\) .*/\1/p' err | tr '\n' ' ')" = '"right" "left" ' ]
    tell orders "watched, quiet and off" $?
    ./ordered show 2>err | told | sed 's/by thread [0-9]*/by thread N/; s/^free chunks: [0-9]*$/free chunks: N/' |
        diff "$here/show.want" -
    tell orders "what is held, and the orders" $?
fi
