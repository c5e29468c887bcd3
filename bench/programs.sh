#!/bin/sh
# Runs programs of Debian under `record`, each with its load, one at a time, and prints for each report of a run what is said of
# its single locks. usage: bench/programs.sh [NAME..]; without names all are run. RECORD names another recorder's command; what
# each run printed stays in the folder OUT, else in one that is named in the end. What isn't installed is left out. The table of
# bench/programs.md is made of it: whether a report is true is for the reader of the program's source.
set -u
here=$(dirname "$(readlink -f "$0")")
record=${RECORD:-$here/../recorder/record}
out=${OUT:-$(mktemp -d)}
mkdir -p "$out"
work=$(mktemp -d)
trap 'rm -rf "$work"' EXIT
cd "$work" || exit 4

# needs NAME PROGRAM..: whether the run of this name is asked for, and its programs are there.
chosen=" $* "
needs() {
    run=$1
    [ "$chosen" = "  " ] || case $chosen in *" $1 "*) ;; *) return 1 ;; esac
    shift
    for needed in "$@"; do
        command -v "$needed" >/dev/null || { echo "$run: $needed isn't installed" && return 1; }
    done
}

# told: the run's reports, by what is said of their single locks.
told() {
    sed 's/^==[0-9]*== //' "$out/$run.err" >lines
    echo "$run: $(grep -c '^lock order reversal\|^acquiring duplicate lock' lines) reports"
    sed -n 's/^single locks: //p' lines | cut -d: -f1 | sort | uniq -c
    tail -n 1 "$out/$run.err"
}

# Without the lists of right orders of libraries. recorded COMMAND..: to its end. serving COMMAND..: while `load` runs, then it is asked to end.
recorded() {
    timeout 600 "$record" --ignore none "$@" >"$out/$run.out" 2>"$out/$run.err" </dev/null
    told
}
serving() {
    timeout -s INT 600 "$record" --ignore none "$@" >"$out/$run.out" 2>"$out/$run.err" </dev/null &
    server=$!
    load >"$out/$run.load" 2>&1
    wait $server
    told
}
# within COMMAND..: until it becomes true, a minute at most.
within() {
    looks=300
    while ! "$@" >/dev/null 2>&1; do
        looks=$((looks - 1))
        [ $looks -gt 0 ] || return 1
        sleep 0.2
    done
}

if needs soffice-odt soffice; then
    echo '<html><body><h1>One</h1><p>two <b>three</b></p><table><tr><td>4</td></tr></table></body></html>' >page.html
    # Its first start makes a profile.
    HOME=$work timeout 300 soffice --headless --convert-to odt page.html >first 2>&1
    HOME=$work recorded -- soffice --headless --convert-to odt page.html
fi
if needs soffice-pdf soffice; then
    seq 1 400 | sed 's/.*/&,a,b,c/' >cells.csv
    HOME=$work timeout 300 soffice --headless --convert-to pdf cells.csv >first 2>&1
    HOME=$work recorded -- soffice --headless --convert-to pdf cells.csv
fi
if needs gst-tee gst-launch-1.0; then
    rm -rf "$work/.cache"
    HOME=$work recorded -- gst-launch-1.0 videotestsrc num-buffers=200 ! tee name=t t. ! queue ! fakesink t. ! queue ! \
        fakesink audiotestsrc num-buffers=400 ! audioconvert ! vorbisenc ! oggmux ! filesink location=tone.ogg
fi
if needs gst-decodebin gst-launch-1.0; then
    [ -f tone.ogg ] || HOME=$work gst-launch-1.0 audiotestsrc num-buffers=400 ! audioconvert ! vorbisenc ! oggmux ! \
        filesink location=tone.ogg >first 2>&1
    HOME=$work recorded -- gst-launch-1.0 filesrc location=tone.ogg ! decodebin ! audioconvert ! fakesink
fi
if needs chromium chromium; then
    echo '<h1>one</h1>' >page.html
    HOME=$work recorded -- chromium --headless --no-sandbox --disable-gpu --screenshot=shot.png "file://$work/page.html"
fi
if needs icecast2 icecast2 ffmpeg curl; then
    cat >icecast.xml <<END
<icecast><limits><clients>20</clients><sources>2</sources></limits>
<authentication><source-password>s</source-password><admin-user>a</admin-user><admin-password>p</admin-password></authentication>
<hostname>localhost</hostname><listen-socket><port>18000</port><bind-address>127.0.0.1</bind-address></listen-socket>
<paths><logdir>$work</logdir><webroot>/usr/share/icecast2/web</webroot><adminroot>/usr/share/icecast2/admin</adminroot></paths>
<logging><accesslog>a.log</accesslog><errorlog>e.log</errorlog></logging>
<security><chroot>0</chroot><changeowner><user>nobody</user><group>nogroup</group></changeowner></security></icecast>
END
    chmod 777 "$work"
    load() {
        within curl -sf http://127.0.0.1:18000/status.xsl || return
        ffmpeg -loglevel error -re -f lavfi -i sine=duration=20 -c:a libvorbis -f ogg icecast://source:s@127.0.0.1:18000/x.ogg &
        source=$!
        sleep 4
        for i in 1 2 3; do timeout 6 curl -s -o "heard$i" http://127.0.0.1:18000/x.ogg & done
        for page in stats listmounts 'listclients?mount=/x.ogg' 'killclient?mount=/x.ogg&id=9'; do
            curl -s -u a:p "http://127.0.0.1:18000/admin/$page" >/dev/null
        done
        sleep 4
        curl -s -u a:p 'http://127.0.0.1:18000/admin/killsource?mount=/x.ogg' >/dev/null
        wait $source
        pkill -HUP -x icecast2
        sleep 2
        curl -s http://127.0.0.1:18000/status.xsl >/dev/null
        pkill -INT -x icecast2
    }
    serving -- icecast2 -c icecast.xml
fi
if needs freeradius freeradius radclient; then
    cp -R /etc/freeradius/3.0 raddb
    chmod -R a+rX raddb
    printf 'bob Cleartext-Password := "hello"\n' >raddb/mods-config/files/authorize
    load() {
        sleep 8
        for i in 1 2 3 4; do
            for j in $(seq 1 150); do printf 'User-Name = "bob", User-Password = "hello"\n\n'; done |
                radclient -p 30 -q 127.0.0.1:1812 auth testing123 &
        done
        sleep 15
        pkill -HUP -x freeradius
        sleep 3
        pkill -TERM -x freeradius
    }
    serving -- freeradius -f -d "$work/raddb"
fi
if needs convert convert; then
    MAGICK_THREAD_LIMIT=4 recorded -- convert -size 800x800 plasma: -blur 0x8 blurred.png
fi
for codec in libx264 libx265; do
    if needs ffmpeg-$codec ffmpeg; then
        ffmpeg -loglevel error -y -f lavfi -i testsrc=duration=3:size=320x240:rate=25 -c:v $codec clip.$codec.mkv 2>first
        recorded -- ffmpeg -loglevel error -threads 4 -i clip.$codec.mkv -f null -
    fi
done
if needs knotd knotd kdig knotc; then
    for zone in a b; do
        printf '$ORIGIN %s.test.\n@ 60 SOA ns h 1 60 60 60 60\n@ 60 NS ns\nns 60 A 127.0.0.1\nw 60 A 127.0.0.2\n' $zone >$zone.zone
    done
    printf 'server:\n    rundir: %s\n    listen: 127.0.0.1@15353\ndatabase:\n    storage: %s/db\nzone:\n' "$work" "$work" >knot.conf
    printf '  - domain: a.test\n    file: %s/a.zone\n' "$work" >>knot.conf
    cp knot.conf knot.less
    printf '  - domain: b.test\n    file: %s/b.zone\n' "$work" >>knot.conf
    load() {
        within timeout 2 kdig @127.0.0.1 -p 15353 w.a.test || return
        for i in $(seq 1 370); do
            kdig @127.0.0.1 -p 15353 w.a.test ns.b.test >/dev/null
        done &
        for i in $(seq 1 370); do
            kdig @127.0.0.1 -p 15353 +tcp w.b.test none.a.test >/dev/null
        done &
        sed -i 's/ 1 60 60/ 2 60 60/' a.zone
        knotc -c knot.conf zone-reload a.test
        knotc -c knot.conf zone-begin b.test
        knotc -c knot.conf zone-set b.test v 60 A 127.0.0.3
        knotc -c knot.conf zone-commit b.test
        cp knot.less knot.conf
        knotc -c knot.conf reload
        sleep 20
        knotc -c knot.conf stop
    }
    serving -- knotd -c knot.conf
fi
if needs tor tor; then
    printf 'DataDirectory %s/tor\nORPort 19001\nControlPort 19051\nDisableNetwork 1\nAssumeReachable 1\nNumCPUs 4\nContactInfo n\nExitRelay 0\nSocksPort 19050\n' \
        "$work" >torrc
    load() {
        sleep 15
        pkill -HUP -x tor
        printf 'AUTHENTICATE\r\nSIGNAL NEWNYM\r\nQUIT\r\n' | timeout 5 nc 127.0.0.1 19051
        sleep 5
        pkill -INT -x tor
        sleep 3
        pkill -INT -x tor
    }
    serving -- tor -f torrc
fi
if needs mariadbd mariadbd mysqlslap mariadb mariadb-install-db; then
    chmod 777 "$work"
    mariadb-install-db --no-defaults --datadir="$work/db" --auth-root-authentication-method=normal >first 2>&1
    load() {
        within mariadb --no-defaults -uroot -S"$work/sock" -e 'select 1' || return
        mysqlslap --no-defaults -uroot -S"$work/sock" -a -c 6 -i 2 --number-of-queries=600
        for engine in InnoDB Aria MyISAM InnoDB; do
            {
                echo "create database if not exists d; use d; create table if not exists $engine (a int auto_increment primary key, b int) engine=$engine;"
                for i in $(seq 1 200); do echo "insert into $engine (b) values ($i); update $engine set b = b + 1 where a = $i;"; done
                echo 'flush logs; flush tables; select count(*) from '$engine';'
            } | mariadb --no-defaults -uroot -S"$work/sock" &
        done
        sleep 20
        mariadb --no-defaults -uroot -S"$work/sock" -e 'shutdown'
    }
    serving -- mariadbd --no-defaults --user=root --datadir="$work/db" --socket="$work/sock" --skip-networking
fi
if needs unbound unbound dig; then
    printf 'server:\n num-threads: 4\n interface: 127.0.0.1\n port: 15354\n chroot: ""\n username: ""\n directory: "%s"\n pidfile: "%s/pid"\n local-zone: "x.test." static\n local-data: "w.x.test. A 127.0.0.2"\nremote-control:\n control-enable: yes\n control-interface: %s/ctl\n control-use-cert: no\n' \
        "$work" "$work" "$work" >unbound.conf
    load() {
        within timeout 2 dig @127.0.0.1 -p 15354 w.x.test || return
        for i in 1 2 3 4; do
            for j in $(seq 1 460); do dig +tries=1 +time=1 @127.0.0.1 -p 15354 w.x.test >/dev/null; done &
        done
        sleep 15
        unbound-control -c unbound.conf dump_cache
        unbound-control -c unbound.conf flush_zone x.test
        unbound-control -c unbound.conf reload
        sleep 5
        unbound-control -c unbound.conf stop
    }
    serving -- unbound -d -c unbound.conf
fi
if needs redis redis-server redis-benchmark; then
    load() {
        within redis-cli -p 16379 ping || return
        redis-benchmark -p 16379 -q -c 20 -n 20000 -t set,get,lpush
        redis-cli -p 16379 bgsave
        sleep 3
        redis-cli -p 16379 shutdown nosave
    }
    serving -- redis-server --port 16379 --io-threads 4 --io-threads-do-reads yes --dir "$work"
fi
if needs erl erl; then
    recorded -- erl -noshell -eval 'P=self(),
        [spawn(fun() -> T=ets:new(t,[public]), ets:insert(T,{a,N}), file:write_file("f"++integer_to_list(N rem 40),<<"x">>), P ! N end)
        || N <- lists:seq(1,3000)], [receive N -> ok end || N <- lists:seq(1,3000)], halt().'
fi
if needs mpv mpv ffmpeg; then
    ffmpeg -loglevel error -y -f lavfi -i testsrc=duration=3 -f lavfi -i sine=duration=3 -c:v libx264 -c:a aac both.mkv 2>first
    HOME=$work recorded -- mpv --vo=null --ao=null both.mkv
fi
if needs pulseaudio pulseaudio pactl; then
    mkdir -p run && chmod 700 run
    load() {
        export XDG_RUNTIME_DIR=$work/run HOME=$work
        within pactl info || return
        pactl load-module module-null-sink sink_name=one
        pactl load-module module-null-sink sink_name=two
        pactl load-module module-combine-sink slaves=one,two
        pactl load-module module-loopback source=one.monitor sink=two
        sleep 5
        pactl list
        pactl exit
    }
    XDG_RUNTIME_DIR=$work/run HOME=$work serving -- pulseaudio -n --exit-idle-time=-1 -L module-native-protocol-unix \
        -L module-null-sink --daemonize=no
fi
echo "what they printed: $out"
