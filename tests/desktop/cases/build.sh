# hsc build.

# From 12-byte events and from the same as text.
head -c 48 two-events.trace | tail -c 24 > two.events
printf 'ACC 7\noutputs 3\n' > two.txt
for events in two.events two.txt; do
    rm -f built.trace
    keep "$events" try 0 build "$events" 1 built.trace
    prints << END
events 2 snapshots 3 acc 7 out 0003 er 0 flags 00000780
written to built.trace
END
    same built.trace two-events.trace
    try 0 check built.trace
done

# Over a file that is there, whose mode stays.
printf 'old' > old.trace
chmod 640 old.trace
try 0 build two.txt 1 old.trace
same old.trace two-events.trace
verdict 'the mode stays' [ "$(stat -c %a old.trace)" = 640 ]

# Standard input, and no events.
status=0
"$PROGRAM" build - 1 input.trace < two.events > out 2> err || status=$?
verdict "from standard input: exit status $status" [ "$status" -eq 0 ]
same input.trace two-events.trace
: > empty
try 0 build empty 4096 empty.trace
{ header 0 4096; snapshot 0 0; } > wanted.trace
same empty.trace wanted.trace

# An image taken apart and built again.
try 0 events --stamps --bare two-events.trace
cp out again.txt
try 0 build again.txt 1 again.trace
same again.trace two-events.trace

# no_trace STATUS MESSAGE EVENTS K: fails with these words and writes nothing.
no_trace() {
    rm -f none.trace
    try "$1" build "$3" "$4" none.trace
    says err "$2"
    verdict "hsc build $3 $4 writes nothing" [ ! -e none.trace -a ! -s out ]
}

for spacing in 0 4097 4294967296 18446744073709551615; do
    no_trace 2 "$spacing: the spacing is 1 to 4096 events" two.txt "$spacing"
done
for spacing in '' x 1.0; do
    no_trace 2 'not a decimal number' two.txt "$spacing"
done
{ event 5 0 7; event 9 0 65536; } > illegal.events
no_trace 1 'illegal.events: refused 5 at 1:' illegal.events 1
head -c 23 two.events > odd.events
no_trace 1 'odd.events: refused, there are 23 bytes, which is not a multiple of 12' odd.events 1
for size in $((12 * 1048576 + 1)) $((12 * 1048577)) 1T; do
    truncate -s "$size" many.events
    no_trace 1 'many.events: refused, there are more than 1048576 events' many.events 1
done
printf 'ACC 7\nACC\n' > wrong.txt
no_trace 1 'wrong.txt: line 2: found nothing, expected a number' wrong.txt 1
no_trace 2 'missing: cannot be opened' missing 1
keep two.txt try 2 build two.txt 1 two.txt
says err 'two.txt: is the file that is read'
try 2 build two.txt 1 -
verdict 'no file is called -' [ ! -e ./- ]

# The largest image.
truncate -s $((12 * 1048576)) all.events
try 0 build all.events 1 all.trace
try 0 check all.trace
rm all.events all.trace many.events
