# hsc mend.

: > empty.patch
cp two-events.trace night.trace
try 0 mend night.trace 0 one-event.patch
prints << END
1 event from place 0, 2 snapshots from index 1, none agreed; ran 2 of 2 events; table not checked
END
{ header 2 1; event 5 0 9; event 9 0 3; snapshot 0 0; snapshot 9 0; snapshot 9 3; } > wanted.trace
same night.trace wanted.trace
try 0 check night.trace

# A patch that changes nothing stops at once; the stamp is copied all the same.
event 5 0 9 77 > stamp.patch
try 0 mend night.trace 0 stamp.patch
prints << END
1 event from place 0, 0 snapshots from index 1, index 1 agreed; ran 1 of 2 events; table not checked
END
{ header 2 1; event 5 0 9 77; event 9 0 3; snapshot 0 0; snapshot 9 0; snapshot 9 3; } > wanted.trace
same night.trace wanted.trace

# No events, in the middle and at the end.
keep night.trace try 0 mend night.trace 1 empty.patch
prints << END
0 events from place 1, 0 snapshots from index 2, index 2 agreed; ran 1 of 2 events; table not checked
END
keep night.trace try 0 mend night.trace 2 empty.patch
prints << END
0 events from place 2, 0 snapshots from index 3, none agreed; ran 0 of 2 events; table not checked
END

# What a mend would run is told, and nothing written. Events past the last snapshot are never run.
keep night.trace try 0 mend --dry-run night.trace 0 one-event.patch
prints << END
1 event from place 0, 0 snapshots from index 1, index 1 agreed; ran 1 of 2 events; table not checked
dry run: nothing is written
END
{ header 5 2; for value in 1 2 3 4 5; do event 5 0 $value; done; for value in 0 2 4; do snapshot $value 0; done; } > five.trace
try 0 check five.trace
{ event 5 0 9; event 5 0 9; } > nine.patch
try 0 mend --dry-run five.trace 1 nine.patch
says out '2 events from place 1, 1 snapshot from index 1, index 2 agreed; ran 4 of 5 events;'
try 0 mend --dry-run five.trace 3 nine.patch
says out '2 events from place 3, 1 snapshot from index 2, none agreed; ran 2 of 5 events;'
try 0 mend --dry-run five.trace 4 one-event.patch
says out '1 event from place 4, 0 snapshots from index 3, none agreed; ran 0 of 5 events;'
{ header 1 1; event 5 0 9; snapshot 0 0; snapshot 9 0; } > one.trace
try 0 mend one.trace 0 one-event.patch
says out '; ran 1 of 1 event; table not checked'
{ header 0 1; snapshot 0 0; } > none.trace
try 0 mend none.trace 0 empty.patch
says out '; ran 0 of 0 events; table not checked'

# Patches that are refused: not whole events, past the end, a place beyond any image, an illegal event.
zeros 13 > odd.patch
{ event 5 0 1; event 5 0 2; event 5 0 3; } > long.patch
{ event 5 0 1; event 5 1 2; } > illegal.patch
keep night.trace refuse 7 0 mend night.trace 0 odd.patch
says err 'odd.patch: refused 7 at 0: the patch has 13 bytes, which is not a multiple of 12'
keep night.trace refuse 7 0 mend night.trace 2 one-event.patch
says err 'one-event.patch: refused 7 at 0: 1 event from place 2 on would go past the end: night.trace has 2 events'
keep night.trace refuse 7 0 mend night.trace 3 empty.patch
keep night.trace refuse 7 0 mend night.trace 0 long.patch
says err 'refused 7 at 0: 3 events from place 0 on would go past the end: night.trace has 2 events'
keep night.trace refuse 7 0 mend night.trace 18446744073709551615 one-event.patch
keep night.trace refuse 8 1 mend night.trace 0 illegal.patch

# The order of refusals: the image's events, then the patch, then the starting snapshot.
cp night.trace damaged.trace
over damaged.trace $((48 + 68 + 60)) -1
keep damaged.trace refuse 7 0 mend damaged.trace 1 long.patch
keep damaged.trace refuse 8 1 mend damaged.trace 0 illegal.patch
keep damaged.trace refuse 6 1 mend damaged.trace 1 one-event.patch
says err 'damaged.trace: refused'
over damaged.trace 24 10
keep damaged.trace refuse 5 0 mend damaged.trace 1 long.patch

# The patch is a regular file that can be read.
mkfifo pipe.patch
for patch in missing.patch pipe.patch . /dev/null; do
    keep night.trace try 2 mend night.trace 0 "$patch"
done

# --check: a table that is true is mended, and that it was looked at is told.
cp two-events.trace night.trace
try 0 mend --check night.trace 0 one-event.patch
prints << END
1 event from place 0, 2 snapshots from index 1, none agreed; ran 2 of 2 events; table checked
END
{ header 2 1; event 5 0 9; event 9 0 3; snapshot 0 0; snapshot 9 0; snapshot 9 3; } > nine.trace
same night.trace nine.trace

# A table that is not true: mended as document 01 has it, and the line says that it was not looked at. With --check it
# is refused, the first snapshot that differs is named, and the file stays.
{ head -c 48 two-events.trace; snapshot 0 0; snapshot 8 0; snapshot 7 3; } > untrue.trace
cp untrue.trace night.trace
keep night.trace try 1 mend night.trace 1 one-event.patch --check
says err 'night.trace: refused, the table is not true: snapshot 1 differs first, 1 of 3 differ'
verdict 'a refused mend prints nothing' [ ! -s out ]
keep night.trace try 1 mend --check --dry-run night.trace 1 one-event.patch
try 0 mend night.trace 1 one-event.patch
says out '; table not checked'
try 3 check night.trace

# --check has replay's refusals first, then the table, then the patch.
cp untrue.trace damaged.trace
try 1 mend --check damaged.trace 0 illegal.patch
says err 'the table is not true'
over damaged.trace 24 10
keep damaged.trace refuse 5 0 mend --check damaged.trace 0 illegal.patch
keep two-events.trace refuse 8 1 mend --check two-events.trace 0 illegal.patch
