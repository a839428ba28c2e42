# Whether a file is XML as hsc draw writes it: every element is closed in its order, one holds all, every value is
# quoted, and no mark of XML stands in the text. Exit status 0: it is.
{ text = text $0 "\n" }
END {
    if (sub(/^<\?xml version="1\.0" encoding="UTF-8"\?>\n/, "", text) != 1)
        exit 1
    while ((at = index(text, "<")) > 0) {
        words = substr(text, 1, at - 1)
        gsub(/&(amp|lt|gt|#160);/, "", words)
        if (words ~ /[&>]/ || (depth == 0 && words ~ /[^ \n]/))
            exit 1
        end = index(text, ">")
        tag = substr(text, at + 1, end - at - 1)
        text = substr(text, end + 1)
        if (tag ~ /^\//) {
            if (depth == 0 || open[depth--] != substr(tag, 2))
                exit 1
        } else if (tag ~ /^[a-z]+( [A-Za-z-]+="[^"<&]*")*\/?$/) {
            if (depth == 0 && roots++ > 0)
                exit 1
            name = tag
            sub(/[ \/].*/, "", name)
            if (tag !~ /\/$/)
                open[++depth] = name
        } else
            exit 1
    }
    exit depth != 0 || roots != 1 || text ~ /[^ \n]/
}
