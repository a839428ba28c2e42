# hsc compare.

# The same events: the file itself, and one with other stamps, spacing and table.
keep two-events.trace try 0 compare two-events.trace two-events.trace
prints << END
same: all 2 events
END
{ header 2 2; event 5 0 7 99; event 9 0 3 4294967295; zeros $((2 * 68)); } > stamps.trace
keep stamps.trace try 0 compare two-events.trace stamps.trace
prints << END
same: all 2 events
END

# One event of as many differs.
{ header 2 1; event 5 0 9; event 9 0 3; zeros $((3 * 68)); } > nine.trace
try 3 compare two-events.trace nine.trace
prints << END
1 of 2 places differ
0  first:  ACC 7
0  second: ACC 9
END

# Value, sub and kind differ, at 1 the stamp alone; and one trace is longer.
{ event 5 0 9; event 1 0 5; event 2 1 400; event 9 0 3; event 7 0 0; } > truck.events
{ event 5 0 12; event 1 0 5 77; event 2 2 400; event 0 0 0; event 7 0 0; } > office.events
{ event 8 0 0; event 6 0 0; event 5 0 1; } >> office.events
{ header 5 5; cat truck.events; zeros $((2 * 68)); } > truck.trace
{ header 8 3; cat office.events; zeros $((3 * 68)); } > office.trace
keep truck.trace try 3 compare truck.trace office.trace
prints << END
3 of 5 places differ
0  first:  ACC 9
0  second: ACC 12
2  first:  stage HIP 400
2  second: stage LOP 400
3  first:  outputs 0x0003
3  second: blank
office.trace is longer by 3 events, from place 5
END
verdict 'the answer is no message' [ ! -s err ]
keep office.trace try 3 compare office.trace truck.trace
says out '3  first:  blank'
says out '3  second: outputs 0x0003'
says out 'office.trace is longer by 3 events, from place 5'
try 3 compare --events truck.events office.events
verdict 'bare events are compared alike' [ "$(grep -c '  first:' out)" -eq 3 ]
says out 'office.events is longer by 3 events, from place 5'

# One trace is only longer, or the other is empty.
head -c 12 truck.events > one.events
: > no.events
try 3 compare --events one.events truck.events
prints << END
0 of 1 places differ
truck.events is longer by 4 events, from place 1
END
try 3 compare --events one.events no.events
prints << END
0 of 0 places differ
one.events is longer by 1 event, from place 0
END
try 0 compare no.events --events no.events
prints << END
same: all 0 events
END

# many COUNT: two images that differ at so many places, the second longer by an event; the first 20 are printed.
many() {
    yes 'ACC 1' | head -n "$1" > ones.txt
    yes 'ACC 2' | head -n $(($1 + 1)) > twos.txt
    try 0 build ones.txt 4096 ones.trace
    try 0 build twos.txt 4096 twos.trace
    try 3 compare ones.trace twos.trace
    says out "$1 of $1 places differ"
    verdict 'the first 20 are printed' [ "$(grep -c '  first:' out)/$(grep -c '  second:' out)" = 20/20 ]
    verdict 'the last of them' [ "$(sed -n 41p out)" = '19  second: ACC 2' ]
}

many 20
verdict 'no more are told of' [ "$(sed 1,41d out)" = 'twos.trace is longer by 1 event, from place 20' ]
many 21
verdict 'one more is told of' [ "$(sed 1,41d out)" = 'and 1 more place, which --all prints
twos.trace is longer by 1 event, from place 21' ]
many 57
says out 'and 37 more places, which --all prints'
try 3 compare --all ones.trace twos.trace
verdict 'every difference is printed' [ "$(grep -c '  first:' out)/$(grep -c '  second:' out)" = 57/57 ]
verdict 'the end of all' [ "$(sed 1,113d out)" = '56  first:  ACC 1
56  second: ACC 2
twos.trace is longer by 1 event, from place 57' ]

# refuse_file NUMBER PLACE FILE WORD..: compare with these words refuses so, and names this file.
refuse_file() {
    refuse_number=$1 refuse_place=$2 refuse_name=$3
    shift 3
    keep "$refuse_name" refuse "$refuse_number" "$refuse_place" compare "$@"
    says err "hsc: $refuse_name: refused $refuse_number at $refuse_place:"
}

# Images are refused as by the other commands, the first one first.
head -c 23 two-events.trace > 1.trace
{ numbers 4 2 24 3 48 1 1; tail -c +25 two-events.trace; } > 2.trace
{ numbers 4 2 25 3 48 1 0; tail -c +25 two-events.trace; } > 3.trace
head -c 251 two-events.trace > 4.trace
for number in 1 2 3 4; do
    refuse_file "$number" 0 "$number.trace" "$number.trace" two-events.trace
    refuse_file "$number" 0 "$number.trace" two-events.trace "$number.trace"
done
refuse_file 4 0 4.trace 4.trace 1.trace
refuse_file 1 0 1.trace 1.trace 4.trace

# An illegal event is refused at its place, also past the shorter's length; those of the first go first.
{ header 2 1; event 5 0 7; event 10 0 0; zeros $((3 * 68)); } > bad.trace
{ header 2 1; event 9 0 65536; event 0 0 0; zeros $((3 * 68)); } > worse.trace
{ header 0 1; zeros 68; } > no-events.trace
refuse_file 5 1 bad.trace bad.trace two-events.trace
says err 'bad.trace: refused 5 at 1: this event is not legal'
refuse_file 5 1 bad.trace two-events.trace bad.trace
refuse_file 5 1 bad.trace no-events.trace bad.trace
refuse_file 5 1 bad.trace bad.trace no-events.trace
refuse_file 5 1 bad.trace bad.trace worse.trace
refuse_file 5 0 worse.trace worse.trace bad.trace

# A file that is no row of events is refused by 9, before 5, and named; whole images never are.
{ event 5 0 7; event 10 0 0; } > bad.events
{ cat bad.events; zeros 1; } > odd.events
refuse_file 5 1 bad.events --events bad.events truck.events
refuse_file 5 1 bad.events --events truck.events bad.events
refuse_file 9 0 odd.events --events odd.events truck.events
says err 'odd.events: refused 9 at 0: not a row of 12-byte events'
refuse_file 9 0 odd.events --events truck.events odd.events
refuse_file 9 0 odd.events --events bad.events odd.events
head -c 11 truck.events > short.events
refuse_file 9 0 short.events --events short.events odd.events
truncate -s $((12 * 1048576)) most.events
try 0 compare --events most.events most.events
prints << END
same: all 1048576 events
END
for size in $((12 * 1048576 + 1)) $((12 * 1048577)) 1T; do
    truncate -s "$size" over.events
    for words in 'over.events most.events' 'most.events over.events'; do
        refuse 9 0 compare --events $words
        says err 'over.events: refused 9 at 0:'
    done
done
rm most.events over.events

# Either file may be standard input, and not both.
try 0 compare - two-events.trace < two-events.trace
cat truck.events | "$PROGRAM" compare --events office.events - > out 2> err
says out 'office.events is longer by 3 events, from place 5'
try 3 compare truck.trace - < office.trace
says out 'standard input is longer by 3 events, from place 5'
refuse 5 1 compare two-events.trace - < bad.trace
says err 'standard input: refused 5 at 1:'
try 2 compare - - < two-events.trace
says err 'standard input: cannot be read twice'

# fails CALL:N:ERRNO TEXT WORD..: compare fails with this text, and prints nothing.
fails() {
    fails_fault=$1 fails_text=$2
    shift 2
    faulty "$fails_fault" try 2 compare "$@"
    says err "$fails_text"
    verdict "$fails_fault: nothing on standard output" [ ! -s out ]
}

fails malloc:1:ENOMEM 'truck.trace: no memory for the image' truck.trace office.trace
fails malloc:2:ENOMEM 'office.trace: no memory for the image' truck.trace office.trace
fails malloc:3:ENOMEM 'truck.trace: no memory for the differences' truck.trace office.trace
fails malloc:2:ENOMEM 'office.events: no memory for its bytes' --events truck.events office.events
fails read:3:EIO 'office.trace: cannot be read: Input/output error' truck.trace office.trace
fails read:2:EIO 'office.events: cannot be read: Input/output error' --events truck.events office.events
fails open:3:EACCES 'office.trace: cannot be opened: Permission denied' truck.trace office.trace
faulty read:1:SHORT try 3 compare truck.trace office.trace
