# The man pages have no warnings, the header's version, and every command and call.

for page in hsc.1 hsc.3 hsc-events.5; do
    verdict "$page has the version $version" grep -q -F "\"hsc $version\"" "$root/man/$page"
    if command -v groff > /dev/null; then
        groff -t -man -ww -z -Tutf8 "$root/man/$page" 2> err
        verdict "$page has no warnings of groff" [ ! -s err ]
    else
        skip 'no groff'
    fi
    if command -v mandoc > /dev/null; then
        mandoc -T lint -W warning "$root/man/$page" > err 2>&1
        verdict "$page has no warnings of mandoc" [ ! -s err ]
    else
        skip 'no mandoc'
    fi
done
: > err
try 0 --help
for command in $(sed -n 's/^  hsc \([a-z]*\).*/\1/p' out); do
    verdict "hsc.1 has $command" grep -q "^\.B hsc $command" "$root/man/hsc.1"
    try 0 help "$command"
    for option in $(sed -n 's/^  \(-[-a-z]*\) .*/\1/p' out); do
        verdict "hsc.1 has $option" grep -q -F -e "$(echo "$option" | sed 's/-/\\-/g')" "$root/man/hsc.1"
    done
done
for call in $(sed -n 's/^[a-z ]*uint.*\(hsc_[a-z_]*\)(.*/\1/p' "$root/include/hsc.h"); do
    verdict "hsc.3 has $call" grep -q "$call" "$root/man/hsc.3"
done

# The page's text is what encode reads, and its words are the program's.
awk '/^\.SH EXAMPLES/ { inside = 1 } inside && /^\.EE/ { exit } printing; inside && /^\.EX/ { printing = 1 }' \
    "$root/man/hsc-events.5" > example.txt
try 0 encode example.txt example.patch
says out '12 events'
