# Images that are refused as a whole, by every command alike.

# every NUMBER PLACE FILE: each command refuses the file so, and leaves it.
every() {
    for every_words in "info $3" "events $3" "show $3 0" "state $3" "draw $3" "draw $3 --csv" "check $3" \
        "compare $3 two-events.trace" "replay $3" "mend $3 0 one-event.patch"; do
        keep "$3" refuse "$1" "$2" $every_words
    done
}

# header_of NUMBER..: the example with these numbers for its header.
header_of() {
    numbers 4 "$@"
    tail -c +25 two-events.trace
}

: > empty.trace
every 1 0 empty.trace
head -c 23 two-events.trace > short.trace
every 1 0 short.trace

header_of 1048577 24 1048578 12582936 1 0 > events.trace
every 2 0 events.trace
header_of 2 24 3 48 0 0 > spacing-0.trace
every 2 0 spacing-0.trace
header_of 2 24 1 48 4097 0 > spacing-4097.trace
every 2 0 spacing-4097.trace
header_of 2 24 3 48 1 1 > sixth.trace
every 2 0 sixth.trace
says err 'header: event count 2, event offset 24, snapshot count 3, snapshot offset 48, spacing 1, sixth 1; file: 252 bytes'

header_of 2 25 3 48 1 0 > event-offset.trace
every 3 0 event-offset.trace
header_of 2 24 2 48 1 0 > snapshots.trace
every 3 0 snapshots.trace
header_of 2 24 3 47 1 0 > snapshot-offset.trace
every 3 0 snapshot-offset.trace
header_of 4294967295 24 3 48 1 0 > most.trace
every 2 0 most.trace

head -c 251 two-events.trace > cut.trace
every 4 0 cut.trace
head -c 24 two-events.trace > header.trace
every 4 0 header.trace
{ cat two-events.trace; zeros 1; } > longer.trace
every 4 0 longer.trace
header_of 1 24 2 36 1 0 > fewer.trace
every 4 0 fewer.trace

# An illegal event is refused by all that look at events.
cp two-events.trace illegal.trace
over illegal.trace 36 10
for words in 'info illegal.trace' 'events illegal.trace' 'state illegal.trace' 'draw illegal.trace' \
    'draw --csv illegal.trace' 'check illegal.trace' \
    'compare illegal.trace two-events.trace' 'replay illegal.trace' 'mend illegal.trace 0 one-event.patch'; do
    keep illegal.trace refuse 5 1 $words
done
