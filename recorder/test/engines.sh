# Tests of examples/orders/fleet: the orders of many processes by Dask and by PostgreSQL, where these are installed, against
# `orders merge`. FLEET says how many files of 1,000 lines each there are. Read by `run`.

# make_fleet FILES: so many recordings, in three folders as of three machines. Each has 1,000 of 5,000 orders.
make_fleet() {
    python3 - "$1" <<'END'
import os, sys
names = ["server:Module%d::lock_%04d" % (i // 50, i) for i in range(5001)]
orders = ['mtx "%s" > mtx "%s"' % (names[i], names[i + 1]) for i in range(5000)]
for machine in range(3):
    os.makedirs("machines/%d" % machine, exist_ok=True)
for run in range(int(sys.argv[1])):
    some = sorted({(run * 7 + at * 13) % 5000 for at in range(1000)})
    with open("machines/%d/%d.orders" % (run % 3, run), "w") as file:
        file.writelines("%s\t# f (m.c) while g (n.c), run%d\n" % (orders[i], run) for i in some)
END
}

# is_merged NAME: whether NAME and NAME.runs have the orders and counts that `orders merge` makes of all.
is_merged() {
    cut -f 1 "$1" | LC_ALL=C sort -c && cut -f 1 "$1" | cmp - merged.orders && sed 's/^\([0-9]*\) [0-9]* mtx/\1 mtx/' merged.runs >wanted.runs &&
        diff wanted.runs "$1.runs" && { "$orders" judge "$1" >judged 2>&1; grep -q "^orders: .*: $(grep -c . merged) orders, [0-9]* types, ${FLEET:-60} runs\$" judged; }
}

by_dask() {
    export PYTHONDONTWRITEBYTECODE=1
    "$1" -m distributed.cli.dask_scheduler --host 127.0.0.1 --port 0 --no-dashboard --scheduler-file "$work/scheduler.json" >dask.log 2>&1 &
    dask=$!
    within [ -s scheduler.json ]
    address=$("$1" -c 'import json; print(json.load(open("scheduler.json"))["address"])')
    for worker in 1 2 3; do
        "$1" -m distributed.cli.dask_worker "$address" --nworkers 1 --nthreads 1 --no-nanny --no-dashboard --local-directory "$work/worker$worker" >>dask.log 2>&1 &
        dask="$dask $!"
    done
    timeout 500 "$1" "$here/../../examples/orders/fleet/by_dask.py" "$address" by_dask machines >told 2>&1 && is_merged by_dask || { cat told judged && tail -n 5 dask.log && false; }
    tell engines "Dask, by three workers on the loopback device" $?
    kill $dask 2>/dev/null
    wait $dask 2>/dev/null
}

by_postgres() {
    as=
    mkdir -p cluster && [ "$(id -u)" -ne 0 ] || { as='setpriv --reuid=postgres --regid=postgres --clear-groups' && chown postgres cluster && chmod go+x .; }
    # The socket's name has a limit, so it stands in a folder of its own.
    export PGHOST=$(mktemp -d) PGUSER=fleet PGDATABASE=postgres
    [ -z "$as" ] || chown postgres "$PGHOST"
    $as "$1/initdb" -D cluster/data -U fleet -A trust --no-sync >postgres.log 2>&1 &&
        $as "$1/pg_ctl" -D cluster/data -w -l cluster/log -o "-k $PGHOST -c listen_addresses= -c fsync=off" start >>postgres.log 2>&1
    fleet=$here/../../examples/orders/fleet/by_postgres
    { "$fleet" begin && for machine in machines/*; do "$fleet" load "$machine" || break; done && "$fleet" end by_postgres; } >told 2>&1 && is_merged by_postgres ||
        { cat told judged && tail -n 5 postgres.log && false; }
    tell engines "PostgreSQL, by one GROUP BY" $?
    $as "$1/pg_ctl" -D cluster/data -m immediate stop >>postgres.log 2>&1
    rm -rf "$PGHOST"
    unset PGHOST PGUSER PGDATABASE
}

if wanted engines; then
    orders=$recorder/orders
    make_fleet "${FLEET:-60}"
    # All files in the sequence of their names: more than a command line has room for.
    "$orders" merge -o merged machines/*/*.orders && cut -f 1 merged >merged.orders
    tell engines "orders merge" $?
    found=
    for python in python3 /usr/bin/python3; do
        "$python" -c 'import distributed' 2>/dev/null && found=$python && break
    done
    if [ -n "$found" ]; then by_dask "$found"; else echo "left out  engines: there is no Dask"; fi
    found=$(for folder in /usr/lib/postgresql/*/bin "$(dirname "$(command -v initdb || echo /none/initdb)")"; do [ ! -x "$folder/initdb" ] || echo "$folder"; done | head -n 1)
    if [ -n "$found" ] && command -v psql >/dev/null && { [ "$(id -u)" -ne 0 ] || id postgres >/dev/null 2>&1; }; then
        by_postgres "$found"
    else
        echo "left out  engines: there is no PostgreSQL"
    fi
fi
