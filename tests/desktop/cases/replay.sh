# hsc replay.

# A file whose table is true is left alone: the same file, the same time.
cp two-events.trace night.trace
touch -d '2001-02-03 04:05:06' night.trace
before=$(stat -c '%i %y %z' night.trace)
keep night.trace try 0 replay night.trace
prints << END
events 2 snapshots 3 acc 7 out 0003 er 0 flags 00000780
table true before
night.trace is left as it is
END
verdict 'a true table: file and times stay' [ "$(stat -c '%i %y %z' night.trace)" = "$before" ]

# A table of zeros becomes the true one.
{ head -c 48 two-events.trace; zeros $((3 * 68)); } > zero.trace
try 0 replay zero.trace
prints << END
events 2 snapshots 3 acc 7 out 0003 er 0 flags 00000780
table not true before: snapshot 0 differs first, 3 of 3 differ
END
same zero.trace two-events.trace
verdict 'no temporary file stays' no_temporary

# No events: the state is fresh. A last event past the last snapshot shows in the line alone.
{ header 0 4096; zeros 68; } > no-events.trace
try 0 replay no-events.trace
prints << END
events 0 snapshots 1 acc 0 out 0000 er 0 flags 00000780
table not true before: snapshot 0 differs first, 1 of 1 differ
END
{ header 3 2; event 5 0 -1; event 9 0 65535; event 5 0 -2147483648; zeros $((2 * 68)); } > three.trace
{ header 3 2; event 5 0 -1; event 9 0 65535; event 5 0 -2147483648; snapshot 0 0; snapshot -1 4095; } > three.wanted
try 0 replay three.trace
prints << END
events 3 snapshots 2 acc -2147483648 out 0fff er 0 flags 00000780
table not true before: snapshot 0 differs first, 2 of 2 differ
END
same three.trace three.wanted
