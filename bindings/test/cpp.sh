# recorder/witness.hpp, by both compilers, with the locks of libraries where those are installed.

# annotated NAME COMPILER OPTIONS..: compiles the program without a warning, and looks at its reports.
annotated() {
    name=$1
    compiler=$2
    shift 2
    "$compiler" -g -Wall -Wextra -Werror -I"$top/recorder" -pthread -o "$name" "$name.cc" "$@" && told "$name" "./$name"
    tell cpp "$name, $compiler $1 ${2%%-I*}" $?
}

# library NAME PACKAGE: the same of the program that uses the library, by its own options.
library() {
    if pkg-config --exists "$2" 2>/dev/null; then
        annotated "$1" c++ -std=c++17 $(pkg-config --cflags --libs "$2")
    else
        echo "left out  cpp: $2 isn't installed"
    fi
}

if wanted cpp c++; then
    cp "$here"/*.cc .
    for compiler in g++ clang++; do
        command -v "$compiler" >/dev/null 2>&1 || continue
        annotated shared "$compiler" -std=c++11 -O0
        annotated shared "$compiler" -std=c++20 -O2
    done
    library absl absl_synchronization
    library glib glib-2.0
fi
