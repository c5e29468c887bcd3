# Tests of the sets of pairs by which the recorder knows what it wrote. Read by `run`, whose functions it uses.

if wanted condensed; then
    sets=$duty
    for sanitizer in "" -fsanitize=address,undefined; do
        if [ ! -f "$sets" ]; then
            echo "left out  condensed: there is no $sets"
            continue
        fi
        "${CC:-cc}" -std=c11 -g -O1 -Wall -Wextra -Werror $sanitizer -o condensed "$here/condensed.c" "$sets" &&
            echo "0 wrong" >wanted.out && ./condensed 20000 2>&1 | diff wanted.out -
        tell condensed "sets of pairs, asked at random${sanitizer:+ ($sanitizer)}" $?
    done
fi
