# Makes the class files of a table of changes (conformance/README.md). Takes the samples and then the table, and prints for each
# file a name, its folder, its bytes in hexadecimal, and the answer. With -v in_order=1 the rows are faults in the order in which
# they are looked for, and each is made with each behind it, and in version 53.

BEGIN { FS = OFS = "\t" }

function stop(why) {
    print FILENAME ":" FNR ": " why >"/dev/stderr"
    status = 1
    exit 1
}

# So many times these digits.
function repeated(hex, count,   half) {
    if (count < 1) return ""
    half = repeated(hex, int(count / 2))
    return count % 2 ? half half hex : half half
}

# The digits of a text in which (HEX*COUNT) stands for so many times HEX.
function digits(text,   from, by, to, hex) {
    while ((from = index(text, "(")) > 0) {
        by = index(text, "*")
        to = index(text, ")")
        hex = hex substr(text, 1, from - 1) repeated(substr(text, from + 1, by - from - 1), substr(text, by + 1, to - by - 1) + 0)
        text = substr(text, to + 1)
    }
    hex = hex text
    if (hex ~ /[^0-9a-f]/ || length(hex) % 2) stop("no bytes: " text)
    return hex
}

# The bytes with these changes, the last of them first, since places are those of the unchanged bytes.
function changed(hex, changes,   list, count, number, last, cut, parts, new, at, old, end) {
    count = split(changes, list, " ")
    end = length(hex) / 2
    cut = -1
    for (number = 1; number <= count; number++) {
        if (list[number] == "-") list[number] = ""
        if (list[number] ~ /^cut=/) {
            cut = substr(list[number], 5) + 0
            list[number] = ""
        }
    }
    for (;;) {
        last = 0
        for (number = 1; number <= count; number++)
            if (list[number] != "" && (last == 0 || list[number] + 0 > list[last] + 0)) last = number
        if (last == 0) break
        split(list[last], parts, "=")
        new = digits(parts[2])
        old = length(new) / 2
        at = parts[1] + 0
        if (parts[1] ~ /\+/) old = substr(parts[1], index(parts[1], "+") + 1) + 0
        if (at + old > end) stop("no such place, or twice: " list[last])
        hex = substr(hex, 1, 2 * at) new substr(hex, 2 * (at + old) + 1)
        end = at
        list[last] = ""
    }
    if (cut >= 0 && 2 * cut > length(hex)) stop("nothing to cut: " changes)
    return cut < 0 ? hex : substr(hex, 1, 2 * cut)
}

# The changes of one row, and those of another at other places.
function joined(one, other,   list, count, number, taken) {
    count = split(one, list, " ")
    for (number = 1; number <= count; number++) taken[list[number] + 0] = 1
    count = split(other, list, " ")
    for (number = 1; number <= count; number++)
        if (!((list[number] + 0) in taken)) one = one " " list[number]
    return one
}

/^#/ || NF == 0 { next }

FILENAME ~ /\.hex$/ {
    name = FILENAME
    sub(/.*\//, "", name)
    sub(/\.hex$/, "", name)
    if (2 * $1 != length(sample[name])) stop("this stands at " length(sample[name]) / 2)
    sample[name] = sample[name] digits($2)
    next
}

NF != 4 || !($1 in sample) || $2 !~ /^(IN|LIB)$/ { stop("no row") }

!in_order { print "changes.tsv, line " FNR, $2, changed(sample[$1], $3), $4 }

in_order {
    rows++
    line[rows] = FNR
    row[rows] = $0
}

END {
    if (status) exit status
    for (first = 1; first <= rows; first++) {
        split(row[first], one)
        for (second = first; second <= rows; second++) {
            split(row[second], other)
            print "order.tsv, lines " line[first] " and " line[second], one[2], changed(sample[one[1]], joined(one[3], other[3])), one[4]
        }
        answer = one[4] == "Malformed 0 Magic" ? one[4] : "Version 53 0"
        print "order.tsv, line " line[first] " in version 53", one[2], changed(sample[one[1]], joined(one[3], "4=00000035")), answer
    }
}
