# Reads a file of cases, as tools/try-cases describes it, and writes of each case what the program is run on into the folder
# `work`: NUMBER.words, a word a line, NUMBER.in, NUMBER.out and NUMBER.err. It prints a line a case,
#     NUMBER STATUS INPUT OUTPUT ERRORS MEMORY FILE:LINE: HEADING
# in which a stream is '-' where it is such a file, or else what stands in its place, and so is MEMORY where there is no limit. For what can't be read as a case NUMBER
# is `malformed`, and behind the place stands why.

function malformed(line, why) {
    print "malformed - - - - -", name ":" line ": " why
}

# What stands behind the first two bytes of a line.
function rest() {
    return substr($0, 3)
}

# `x{3}` stands for `xxx`.
function repeated(text,    letter, times, bytes) {
    while (match(text, /.[{][0-9]+[}]/)) {
        bytes = bytes substr(text, 1, RSTART - 1)
        letter = substr(text, RSTART, 1)
        times = substr(text, RSTART + 2, RLENGTH - 3) + 0
        text = substr(text, RSTART + RLENGTH)
        for (; times > 0; times--) bytes = bytes letter
    }
    return bytes text
}

# The bytes of a row's half.
function marked(text) {
    gsub(/[|]/, "\n", text)
    gsub(/\^/, "\t", text)
    return repeated(bytes_of(text))
}

# The bytes of a word: '' is one without any.
function word_of(text) {
    if (text == "\047\047") return ""
    if (text ~ /\\x00/) malformed(FNR, "no word has such a byte")
    return repeated(bytes_of(text))
}

# `\xFF` is one byte.
function bytes_of(text,    at, byte, bytes) {
    while ((at = index(text, "\\x")) > 0) {
        byte = byte_at(text, at + 2)
        if (byte < 0) malformed(FNR, "a byte is written otherwise")
        bytes = bytes substr(text, 1, at - 1) sprintf("%c", byte)
        text = substr(text, at + 4)
    }
    return bytes text
}

# The byte that two digits name, or a number below 0.
function byte_at(text, at,    high, low) {
    high = digit(substr(text, at, 1))
    low = digit(substr(text, at + 1, 1))
    return high < 0 || low < 0 ? -1 : high * 16 + low
}

function digit(letter) {
    return letter == "" ? -1 : index("0123456789ABCDEF", letter) - 1
}

# The words of a command, of which some name streams as they do in a shell.
function command(text,    count, at, parts) {
    if (words != "") malformed(FNR, "a second command")
    count = split(text, parts, " ")
    for (at = 1; at <= count; at++) {
        if (parts[at] == "</") input = "/"
        else if (parts[at] == ">/dev/full") output = "/dev/full"
        else if (parts[at] == "2>/dev/full") errors = "/dev/full"
        else if (parts[at] == "2>&-") errors = "closed"
        else if (parts[at] ~ /[<>]/) malformed(FNR, "no stream is named so")
        else words = words word_of(parts[at]) "\n"
    }
}

# A text by its name; `, 1 to 9` behind the name says for which numbers.
function named(text,    at, bounds) {
    if (match(text, /, [0-9]+ to [0-9]+$/)) {
        at = RSTART
        split(substr(text, at + 2), bounds, " to ")
        text = substr(text, 1, at - 1)
    }
    if (!(text in texts)) malformed(FNR, "no text is named so")
    else if (at == 0) return texts[text]
    else return counted(texts[text], bounds[1] + 0, bounds[2] + 0)
}

# A text once for each number from the first to the last. What halves come to is joined, so that few long texts are copied.
function counted(text, first, last,    middle) {
    if (first > last) return ""
    if (first == last) return repeated(numbered(text, first))
    middle = int((first + last) / 2)
    return counted(text, first, middle) counted(text, middle + 1, last)
}

# `{n}` stands for the number, and `{n+9}` for the one that is nine above. (`gsub` would remember each number in a list.)
function numbered(text, number,    above) {
    while (match(text, /[{]n([+][0-9]+)?[}]/)) {
        above = substr(text, RSTART + 2, RLENGTH - 3) + number
        text = substr(text, 1, RSTART - 1) above substr(text, RSTART + RLENGTH)
    }
    return text
}

function save(bytes, file) {
    printf "%s", bytes > file
    close(file)
}

# Writes a case whose trace goes on with these bytes, and whose output does with those.
function write_case(line, of_trace, of_output,    path) {
    number++
    path = work "/" number
    save(words, path ".words")
    save(trace of_trace, path ".in")
    save(told of_output, path ".out")
    save(complaints, path ".err")
    print number, status, input, output, errors, memory, name ":" line ": " heading
}

# Writes a row as a case, or as one for each byte of the range that it has.
function write_row(line, row,    at, byte, last) {
    if (match(row, /\\x[0-9A-F][0-9A-F]-[0-9A-F][0-9A-F]/)) {
        at = RSTART
        last = byte_at(row, at + 5)
        for (byte = byte_at(row, at + 2); byte <= last; byte++)
            write_row(line, substr(row, 1, at - 1) sprintf("\\x%02X", byte) substr(row, at + 7))
        return
    }
    at = index(row, " => ")
    if (at == 0) malformed(line, "a row without ' => '")
    else write_case(line, marked(substr(row, 1, at - 1)), marked(substr(row, at + 4)) "\n")
}

# Ends what the last heading began.
function end_case(    at) {
    if (heading == "") return
    if (words == "") malformed(begun, "no command")
    else if (status !~ /^[0-9]+$/) malformed(begun, "no status")
    else if (input != "-" && trace != "") malformed(begun, "a trace that isn't read")
    else if (output != "-" && told rows[1] != "") malformed(begun, "an output that isn't seen")
    else if (errors != "-" && complaints != "") malformed(begun, "standard error that isn't seen")
    else if (count > 0 && told != "") malformed(begun, "an output beside those of the rows")
    else if (count == 0) write_case(begun, "", "")
    else for (at = 1; at <= count; at++) write_row(lines[at], rows[at])
}

function begin_case(text) {
    end_case()
    heading = text
    begun = FNR
    words = status = trace = told = complaints = ""
    input = output = errors = memory = "-"
    count = 0
    split("", rows)
    text_name = ""
}

function begin_text(text) {
    begin_case("")
    if (text in texts) malformed(FNR, "a second text of this name")
    text_name = text
    texts[text] = ""
}

# Whether the line begins so, with nothing or a blank behind it.
function is(kind) {
    return $0 == kind || index($0, kind " ") == 1
}

BEGIN { begin_case("") }
/^$/ || /^#/ { next }
/^== ./ { begin_case(substr($0, 4)); next }
/^@ ./ { begin_text(rest()); next }
text_name != "" && is("-") { texts[text_name] = texts[text_name] rest() "\n"; next }
heading == "" { malformed(FNR, "a line outside of a case"); next }
/^[$] ./ { command(rest()); next }
/^= ./ { if (status != "") malformed(FNR, "a second status"); status = rest(); next }
/^% [0-9]+$/ { if (memory != "-") malformed(FNR, "a second limit"); memory = rest(); next }
/^<@ ./ { trace = trace named(substr($0, 4)); next }
/^>@ ./ { told = told named(substr($0, 4)); next }
/^!@ ./ { complaints = complaints named(substr($0, 4)); next }
is("<") { trace = trace rest() "\n"; next }
is(">") { told = told rest() "\n"; next }
is("!") { complaints = complaints rest() "\n"; next }
is(":") { rows[++count] = rest(); lines[count] = FNR; next }
{ malformed(FNR, "a line of no kind") }
END { end_case() }
