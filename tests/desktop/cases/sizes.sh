# The largest legal image, and files beyond any.

largest=$((24 + 12 * 1048576 + 68 * 1048577))

header 1048576 1 > largest.trace
truncate -s "$largest" largest.trace
try 3 check largest.trace
says out 'not true: snapshot 0 differs first, 1048577 of 1048577 differ'
try 0 replay largest.trace
says out 'events 1048576 snapshots 1048577 acc 0'
try 0 check largest.trace
try 0 info largest.trace
says out 'gap: events 0 to 1048575, 1048576 blank'
try 0 show largest.trace 1048576
try 0 compare largest.trace largest.trace
says out 'same: all 1048576 events'
truncate -s $((12 * 1048576)) all.patch
try 0 mend largest.trace 0 all.patch
prints << END
1048576 events from place 0, 1048575 snapshots from index 1, index 1048576 agreed; ran 1048576 of 1048576 events; table not checked
END
try 0 mend largest.trace 1048575 one-event.patch
says out '1 snapshot from index 1048576, none agreed; ran 1 of 1048576 events'
try 0 show largest.trace 1048576
says out 'ACC      9'
truncate -s $((12 * 1048576 + 12)) over.patch
keep largest.trace refuse 7 0 mend largest.trace 0 over.patch
cat largest.trace | "$PROGRAM" receive received.trace > out 2> err
verdict 'the largest image is received' [ $? -eq 0 ]
prints << END
events 1048576 snapshots 1048577 acc 9 out 0000 er 0 flags 00000780
table true as sent
written to received.trace
END
same received.trace largest.trace
rm largest.trace received.trace

# The widest spacing: what a mend would run is told before it is written.
header 1048576 4096 > wide.trace
truncate -s $((24 + 12 * 1048576 + 68 * 257)) wide.trace
try 0 replay wide.trace
zeros 12 > blank.patch
keep wide.trace try 0 mend --dry-run wide.trace 500000 blank.patch
prints << END
1 event from place 500000, 0 snapshots from index 123, index 123 agreed; ran 4096 of 1048576 events; table not checked
dry run: nothing is written
END
keep wide.trace try 0 mend --dry-run wide.trace 0 one-event.patch
prints << END
1 event from place 0, 256 snapshots from index 1, none agreed; ran 1048576 of 1048576 events; table not checked
dry run: nothing is written
END
rm wide.trace

# A sender that has no end is refused at the first byte past the image.
{ header 1048576 4096; cat /dev/zero; } 2> /dev/null | "$PROGRAM" receive received.trace > out 2> err
verdict 'a sender without an end is refused' [ $? -eq 1 ]
says err "refused 4 at 0: the image's length is not what its header asks for; seen after $((24 + 12 * 1048576 + 68 * 257 + 1)) bytes"
verdict 'nothing is written' [ ! -e received.trace ]

# Not read: the header decides.
header 1048576 1 > over.trace
truncate -s $((largest + 1)) over.trace
truncate -s 1T huge.trace
header 2 1 > tail.trace
truncate -s 1T tail.trace
for words in info replay check; do
    refuse 4 0 "$words" over.trace
    refuse 2 0 "$words" huge.trace
    refuse 4 0 "$words" tail.trace
done
refuse 4 0 show tail.trace 0
refuse 4 0 compare two-events.trace tail.trace
refuse 4 0 mend tail.trace 0 one-event.patch
verdict 'a huge image keeps its size' [ "$(stat -c %s tail.trace)" -eq 1099511627776 ]

truncate -s 1T huge.patch
keep two-events.trace refuse 7 0 mend two-events.trace 0 huge.patch
says err 'the patch has more than 12582912 bytes, which are the events of the largest image'
keep two-events.trace refuse 7 0 mend two-events.trace 0 over.patch
