# Tests of what an installed libwitness is found by: pkg-config, CMake and meson. Read by `run`, whose functions it uses.

# block HEADING NUMBER: the indented block of that number below the line of docs/recording.md that begins so.
block() {
    awk -v heading="$1" -v wanted="$2" '
        index($0, heading) == 1 { inside = 1; next }
        inside && /^    / { if (!within) number++; within = 1; if (number == wanted) print substr($0, 5); next }
        inside && /^$/ { if (within && number == wanted) print ""; next }
        inside && number >= wanted { exit }
        { within = 0 }' "$top/docs/recording.md"
}

by_pkg_config() {
    export PKG_CONFIG_PATH="$prefix/lib/pkgconfig"
    "${CC:-cc}" -g -pthread -o reversal reversal.c $(pkg-config --cflags --libs witness) -Wl,-rpath,"$prefix/lib" &&
        WITNESS=1 ./reversal 2>err && grep -qx 'lock order reversal:' err && [ "$(pkg-config --modversion witness)" = "$version" ]
    tell packages "pkg-config" $?
}

by_cmake() {
    mkdir -p by_cmake && cp reversal.c by_cmake && echo 'int main(void) { return 0; }' >by_cmake/quiet.c
    cat >by_cmake/CMakeLists.txt <<END
cmake_minimum_required(VERSION 3.10)
project(uses C)
enable_testing()
find_package(Threads REQUIRED)
find_package(witness $version REQUIRED)
add_executable(reversal reversal.c)
target_link_libraries(reversal witness::witness Threads::Threads)
add_executable(quiet quiet.c)
witness_add_test(reported COMMAND reversal)
witness_add_test(allowed OPTIONS --alarms threads,apart COMMAND reversal)
witness_add_test(silent EXITCODE 7 COMMAND quiet)
END
    (cd by_cmake && cmake -DCMAKE_PREFIX_PATH="$prefix" . >made 2>&1 && cmake --build . >>made 2>&1) && (cd by_cmake && ctest -V >tested 2>&1)
    { grep -q '1/3 Test #1: reported .*Failed' by_cmake/tested && grep -q '2/3 Test #2: allowed .*Passed' by_cmake/tested &&
        grep -q '3/3 Test #3: silent .*Passed' by_cmake/tested && WITNESS=1 by_cmake/reversal 2>err && grep -qx 'lock order reversal:' err; } ||
        { cat by_cmake/made by_cmake/tested && false; }
    tell packages "CMake, and its tests" $?
    for asked in 0.4 99; do
        sed -i "s/find_package(witness .*/find_package(witness $asked REQUIRED)/" by_cmake/CMakeLists.txt
        rm -rf by_cmake/CMakeCache.txt && ! (cd by_cmake && cmake -DCMAKE_PREFIX_PATH="$prefix" . >made 2>&1) &&
            grep -q 'compatible with requested' by_cmake/made
        tell packages "CMake refuses version $asked" $?
    done
}

by_meson() {
    name=witness-$version-linux-x86_64
    mkdir -p by_meson/subprojects/packagefiles/witness && cp reversal.c by_meson && mv "$prefix" "$name" &&
        tar -czf "by_meson/subprojects/packagefiles/$name.tar.gz" "$name"
    block '**Meson**' 1 >by_meson/subprojects/witness.wrap && block '**Meson**' 2 >by_meson/subprojects/packagefiles/witness/meson.build
    printf "project('uses', 'c')\nexecutable('reversal', 'reversal.c', dependencies: [dependency('witness'), dependency('threads')])\n" \
        >by_meson/meson.build
    (cd by_meson && env -u PKG_CONFIG_PATH meson setup out >made 2>&1 && ninja -C out >>made 2>&1) && WITNESS=1 by_meson/out/reversal 2>err &&
        grep -qx 'lock order reversal:' err || { cat by_meson/made && false; }
    tell packages "meson, by the wrap of the document" $?
}

if wanted packages; then
    prefix=$work/installed
    version=$(sed -n 1p "$top/VERSION")
    WITNESS=$program "$top/tools/install" "$prefix" >installed.out 2>&1
    case $? in 0 | 3) true ;; *) cat installed.out && false ;; esac
    tell packages "all is installed" $?
    cp "$top/recorder/test/trees.c" . && "${CC:-cc}" -g -DLIBRARY -shared -fPIC -o libtrees.so trees.c -pthread &&
        "${CC:-cc}" -g -o trees trees.c ./libtrees.so -Wl,-rpath,"$work" -pthread &&
        echo 'libtrees.so "tree_new" in "tree_clone"' >"$prefix/share/witness/known/test.known" &&
        "$prefix/bin/record" -- ./trees 2>&1 | tail -n 1 >told &&
        echo 'record: nothing to report; 1 known of libtrees.so' | diff - told && [ -s "$prefix/share/witness/known/libavcodec.known" ]
    tell packages "right orders of libraries, by a list that stands there" $?
    cp "$top/recorder/test/reversal.c" .
    for needed in pkg-config cmake meson; do
        if ! command -v $needed >/dev/null; then
            echo "left out  packages: there is no $needed"
        elif [ $needed = meson ] && ! command -v ninja >/dev/null; then
            echo "left out  packages: there is no ninja"
        else
            by_$(echo $needed | tr - _)
        fi
    done
    unset PKG_CONFIG_PATH
fi
