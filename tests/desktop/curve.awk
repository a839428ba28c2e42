# Reads a picture of hsc draw, then its lines of place and count: in every column the curve comes from where the one
# before left it, reaches the lowest and the highest count and no farther, and leaves at the last. Exit status 0: yes.
function down(count) { return top + int(((high - count) * 400 + (high - low) / 2) / (high - low)) }
function least(a, b) { return a < b ? a : b }
function most(a, b) { return a > b ? a : b }
function follow_path() {
    column = 0
    match(path, /^M110 [0-9]+/)
    start = drawn_top[0] = drawn_bottom[0] = at = substr(path, 6, RLENGTH - 5) + 0
    for (path = substr(path, RLENGTH + 1); match(path, /^[HV][0-9]+/); path = substr(path, RLENGTH + 1)) {
        number = substr(path, 2, RLENGTH - 1) + 0
        if (path ~ /^V/) {
            at = number
            drawn_top[column] = least(drawn_top[column], at)
            drawn_bottom[column] = most(drawn_bottom[column], at)
        } else
            while (column < number - 128) {
                left[column++] = at
                drawn_top[column] = drawn_bottom[column] = at
            }
    }
    return path == "" && column == 960
}
FNR == NR && /^<g text-anchor="end">$/ { inside = 1 }
FNR == NR && /^<\/g>/ { inside = 0 }
FNR == NR && inside && /<text/ {
    split($0, part, "\"")
    top = part[4] - 4
    gsub(/&#160;|^[^>]*>|<\/text>/, "")
    low = labels++ == 0 ? $0 + 0 : low
    high = $0 + 0
}
FNR == NR && /^<path id="count"/ { split($0, part, " d=\""); path = part[2]; sub(/".*/, "", path) }
FNR < NR && FNR > 1 { split($0, part, ","); counts[events++] = part[2] + 0 }
END {
    if (!follow_path()) {
        print "the path ends at column " column " with " path
        exit 1
    }
    for (i = 0; i < events; i++) {
        column = int(i * 960 / events)
        at = down(counts[i])
        count_top[column] = column in last ? least(count_top[column], at) : at
        count_bottom[column] = column in last ? most(count_bottom[column], at) : at
        last[column] = at
    }
    at = start
    for (i = 0; i < 960; i++) {
        wanted_top = i in last ? least(count_top[i], at) : at
        wanted_bottom = i in last ? most(count_bottom[i], at) : at
        at = i in last ? last[i] : at
        if (drawn_top[i] != wanted_top || drawn_bottom[i] != wanted_bottom || left[i] != at) {
            print "column " i ": " drawn_top[i] " to " drawn_bottom[i] ", then " left[i] ", not " wanted_top " to " \
                wanted_bottom ", then " at
            exit 1
        }
    }
}
