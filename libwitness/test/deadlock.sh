# A deadlock that happens: read by `run`, whose functions it uses.

# hangs WORD ACTION: runs `hangs` so, at most for a hundred seconds.
hangs() {
    WITNESS=1 WITNESS_ON_DEADLOCK=$2 sh -c 'timeout -s KILL "$1" ./hangs "$2" >out; exit $?' sh "${3:-100}" "$1" 2>err
}

# Each seat's line of waiting and those of what it holds; seats and threads are either way round.
circle() {
    told <err | sed -n '/^circle:$/,/^asked by/p' | sed 's/[0-9][0-9]* *waits/N waits/; s/seat [0-9][0-9]*/seat N/g; s/thread [0-9]*,/thread N,/' |
        grep -v '^asked by' | LC_ALL=C sort
}

if wanted deadlock; then
    compile hangs $linked
    cat >circle.want <<'END'
 seat N waits for "journal" held by seat N
 seat N waits for "pool" held by seat N
circle:
exclusive sleep mutex "pool" r = 0 in commit (hangs)
seat N, thread N, waits in checkpoint (hangs) and holds:
seat N, thread N, waits in commit (hangs) and holds:
shared rw "journal" r = 0 in checkpoint (hangs)
END
    for word in new known; do
        hangs $word exit=3
        [ $? -eq 3 ] && circle | diff circle.want -
        tell deadlock "threads that wait for one another, orders $word: ended by exit=3, with its reason" $?
    done
    hangs known kill
    [ $? -eq 137 ] && circle | diff circle.want - && [ "$(grep -c '^circle:$' err)" -eq 1 ]
    tell deadlock "ended by kill" $?
    hangs new tell 8
    [ $? -eq 137 ] && circle | diff circle.want - && [ "$(grep -c '^circle:$' err)" -eq 1 ]
    tell deadlock "told once, and it hangs on" $?
    hangs self exit=3
    [ $? -eq 3 ] && grep -q '^ a thread waits for "pool" that it holds itself$' err
    tell deadlock "a thread that waits for itself" $?
    hangs short exit=3 && [ "$(cat out)" = ended ] && ! grep -q '^circle:$' err
    tell deadlock "a wait that ends within a second" $?
    hangs long exit=3 && [ "$(cat out)" = ended ] && [ "$(grep -c '^circle:$' err)" -eq 1 ] &&
        told <err | grep -q '^seat [0-9]*, thread [0-9]*, waits with a time limit in commit (hangs) and holds:$'
    tell deadlock "a circle that ends by itself is told, and the program goes on" $?
    hangs new "" 3
    [ $? -eq 137 ] && ! grep -q '^circle:$' err
    tell deadlock "nothing where it isn't asked for" $?
    # A wait for a condition ends with its mutex alone: it counts as a wait for that.
    compile conditions $linked
    for word in signalled unsignalled timed known two; do
        WITNESS=1 WITNESS_ON_DEADLOCK=exit=3 timeout -s KILL 100 ./conditions $word >out 2>err
        [ $? -eq 3 ] && [ "$(grep -c '^circle:$' err)" -eq 1 ] && grep -q '^ seat [0-9]* waits for "inner" held by seat [0-9]*$' err &&
            told <err | grep -A 1 '^seat [0-9]*, thread [0-9]*, waits in keep (conditions) and holds:$' |
            grep -q '^exclusive sleep mutex "outer" r = 0 in keep (conditions)$'
        tell deadlock "a circle with a wait for a condition: $word" $?
    done
    WITNESS=1 WITNESS_ON_DEADLOCK=exit=3 timeout -s KILL 100 ./conditions ends >out 2>err && [ "$(cat out)" = ended ] && [ ! -s err ]
    tell deadlock "a wait for a condition that comes late, while threads wait for what its thread holds" $?
    WITNESS=1 WITNESS_ON_DEADLOCK=exit=3 timeout -s KILL 100 ./conditions left >out 2>err && [ "$(cat out)" = ended ] && [ ! -s err ]
    tell deadlock "a wait for a condition that is left by a jump" $?
    # A request with a time limit that is repeated waits as one without.
    compile hung $linked
    for word in repeats both; do
        WITNESS=1 WITNESS_ON_DEADLOCK=exit=3 timeout -s KILL 100 ./hung $word >out 2>err
        [ $? -eq 3 ] && [ "$(grep -c '^circle:$' err)" -eq 1 ] && ! grep -q 'with a time limit' err &&
            grep -q '^ seat [0-9]* waits for "pool" held by seat [0-9]*$' err && grep -q '^ seat [0-9]* waits for "journal" held by seat [0-9]*$' err
        tell deadlock "requests with a time limit without an end: $word" $?
    done
    for word in backs gives; do
        WITNESS=1 WITNESS_ON_DEADLOCK=exit=3 timeout -s KILL 100 ./hung $word >out 2>err && grep -qx 'all went on' out
        tell deadlock "requests with a time limit that end: $word" $?
    done
    hangs short exut=3 && grep -q '^witness: WITNESS_ON_DEADLOCK is tell, kill or exit=N up to 255, not exut=3: ' err
    tell deadlock "a wrong word" $?
fi
