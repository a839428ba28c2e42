# hsc receive.

# A night of 54 events and 7 snapshots, 1148 bytes; the example with a table of zeros, of words, and with one wrong number
# in it, and with an illegal event; and what they are sent over.
"$PROGRAM" build "$root/examples/small-night.txt" 8 night.trace > /dev/null
{ head -c 48 two-events.trace; zeros $((3 * 68)); } > zero.trace
{ head -c 48 two-events.trace; head -c $((3 * 68)) "$root/desktop/receive.c"; } > words.trace
cp two-events.trace one.trace
over one.trace $((48 + 68 + 52)) 8
cp two-events.trace illegal.trace
over illegal.trace 36 10
mkfifo radio

# An image as it comes from a file or a pipe, with and without -: it is kept whole, with a true table.
umask 027
from two-events.trace try 0 receive made.trace
prints << END
events 2 snapshots 3 acc 7 out 0003 er 0 flags 00000780
table true as sent
written to made.trace
END
umask 022
verdict 'no message that is not for a terminal' [ ! -s err ]
same made.trace two-events.trace
verdict 'a new file has its mode by umask' [ "$(stat -c %a made.trace)" = 640 ]
cat night.trace | "$PROGRAM" receive "$(pwd)/whole.trace" - > out 2> err
prints << END
events 54 snapshots 7 acc -2 out 0000 er 0 flags 000a07e0
table true as sent
written to $(pwd)/whole.trace
END
same whole.trace night.trace
try 0 check whole.trace
{ header 0 4096; zeros 68; } > none.trace
from none.trace try 0 receive made.trace
says out 'events 0 snapshots 1 acc 0'

# The sender's table is not believed: what is kept is what replay writes.
for sent in zero.trace words.trace one.trace; do
    cp "$sent" replayed.trace
    try 0 replay replayed.trace
    { sed 's/ before:/ as sent:/' out; echo 'written to made.trace'; } > wanted
    from "$sent" try 0 receive made.trace
    same out wanted
    same made.trace replayed.trace
    try 0 check made.trace
done
says wanted 'table not true as sent: snapshot 1 differs first, 1 of 3 differ'

# record, record_no_more: the program's next calls are added to the file calls (fault.c).
record() {
    : > calls
    chmod 666 calls
    FAULT_CALLS=calls
    export FAULT_CALLS
}
record_no_more() {
    unset FAULT_CALLS
}

# heard COUNT: waits until the program has read so many chunks and waits for another, or has ended.
heard() {
    for i in $(seq 2000); do
        ! grep -q -x fclose calls || break
        [ "$(grep -c -x poll calls)" -le "$1" ] || break
        sleep 0.002
    done
}

# send FILE SIZE: the file in chunks of so many bytes, each when the one before it was read.
send() {
    mkdir chunks
    split -b "$2" -a 4 "$1" chunks/
    sent=0
    for chunk in chunks/*; do
        cat "$chunk" || break
        sent=$((sent + 1))
        heard "$sent"
    done
    rm -r chunks
}

# hear FILE SIZE COMMAND..: runs the command, with the program in it, while the file is sent so.
hear() {
    record
    send "$1" "$2" > radio 2> /dev/null &
    sender=$!
    shift 2
    from radio "$@"
    wait "$sender"
    record_no_more
}

# Cut in any way it is the same image.
for size in 1 5 12 24 100; do
    rm -f made.trace
    hear two-events.trace "$size" try 0 receive made.trace
    says out 'table true as sent'
    same made.trace two-events.trace
done
{ head -c $((24 + 54 * 12)) night.trace; zeros $((7 * 68)); } > bare.trace
for size in 7 11 13 25 36 68 500 1147; do
    rm -f made.trace
    hear bare.trace "$size" try 0 receive made.trace
    says out 'events 54 snapshots 7 acc -2'
    same made.trace night.trace
    verdict "chunks of $size bytes are read as they come" [ "$(grep -c -x read calls)" -eq $(((1148 + size - 1) / size + 1)) ]
done
rm -f made.trace
faulty read:1:SHORT from bare.trace try 0 receive made.trace
same made.trace night.trace

# not_made COMMAND..: the command makes no file, nor a temporary one; one that is there is left.
not_made() {
    rm -f made.trace
    "$@"
    verdict "$*: makes no file" [ "$(find . -name made.trace -o -name '.hsc-*')" = '' ]
    cp words.trace made.trace
    keep made.trace "$@"
}

# A sender that dies, after every number of bytes; and after some of them, with pauses.
asked='header: event count 2, event offset 24, snapshot count 3, snapshot offset 48, spacing 1, sixth 0; image: 252 bytes'
for size in $(seq 0 251); do
    head -c "$size" two-events.trace > cut.trace
    if [ "$size" -lt 24 ]; then
        from cut.trace refuse 1 0 receive never.trace
        verdict 'one line is told' [ "$(wc -l < err)" -eq 1 ]
    else
        from cut.trace refuse 4 0 receive never.trace
        says err "standard input: $asked"
    fi
    verdict "a sender that dies after $size bytes" grep -q -E "standard input: refused .*; ended after $size bytes?\$" err
done
verdict 'nothing is written' [ "$(find . -name never.trace -o -name '.hsc-*')" = '' ]
for size in 0 1 23 24 29 36 47 48 100 251; do
    head -c "$size" two-events.trace > cut.trace
    if [ "$size" -lt 24 ]; then number=1; else number=4; fi
    [ "$size" -eq 0 ] || not_made hear cut.trace 10 refuse "$number" 0 receive made.trace
    not_made from cut.trace refuse "$number" 0 receive made.trace
done
says err 'ended after 251 bytes'

# A sender that sends too much: at once, or a little later.
{ cat two-events.trace; zeros 1; } > longer.trace
{ cat two-events.trace two-events.trace; } > twice.trace
for file in longer.trace twice.trace; do
    not_made from "$file" refuse 4 0 receive made.trace
    says err "standard input: refused 4 at 0: the image's length is not what its header asks for; seen after 253 bytes"
    says err "standard input: $asked"
    for size in 1 84 252; do
        not_made hear "$file" "$size" refuse 4 0 receive made.trace
        says err '; seen after 253 bytes'
    done
done

# An illegal event: its number, its place and its last byte. It goes before a length that is wrong.
not_made from illegal.trace refuse 5 1 receive made.trace
says err 'standard input: refused 5 at 1: this event is not legal; seen after 48 bytes'
verdict 'one line is told' [ "$(wc -l < err)" -eq 1 ]
for size in 1 13 48; do
    not_made hear illegal.trace "$size" refuse 5 1 receive made.trace
    says err '; seen after 48 bytes'
done
head -c 48 illegal.trace > cut.trace
not_made from cut.trace refuse 5 1 receive made.trace
head -c 47 illegal.trace > cut.trace
not_made from cut.trace refuse 4 0 receive made.trace
{ cat illegal.trace; zeros 1; } > longer.trace
not_made from longer.trace refuse 5 1 receive made.trace
for place in 0 17 53; do
    cp night.trace bad.trace
    over bad.trace $((24 + 12 * place)) 10
    not_made from bad.trace refuse 5 "$place" receive made.trace
    says err "; seen after $((24 + 12 * place + 12)) bytes"
done

# header_of NUMBER..: the example with these numbers for its header.
header_of() {
    numbers 4 "$@"
    tail -c +25 two-events.trace
}

# A bad header, with its numbers; whatever comes after it.
header_of 1048577 24 1048578 12582936 1 0 > events.trace
header_of 2 24 3 48 0 0 > spacing-0.trace
header_of 2 24 1 48 4097 0 > spacing-4097.trace
header_of 2 24 3 48 1 1 > sixth.trace
header_of 2 25 3 48 1 0 > event-offset.trace
header_of 2 24 2 48 1 0 > snapshots.trace
header_of 2 24 3 47 1 0 > snapshot-offset.trace
for file in events spacing-0 spacing-4097 sixth event-offset snapshots snapshot-offset; do
    case $file in
    event-offset | snapshot*) number=3 ;;
    *) number=2 ;;
    esac
    not_made from "$file.trace" refuse "$number" 0 receive made.trace
    says err '; seen after 24 bytes'
    head -c 24 "$file.trace" > cut.trace
    not_made from cut.trace refuse "$number" 0 receive made.trace
    not_made hear "$file.trace" 9 refuse "$number" 0 receive made.trace
    head -c 23 "$file.trace" > cut.trace
    not_made from cut.trace refuse 1 0 receive made.trace
done
from sixth.trace refuse 2 0 receive made.trace
verdict 'the header is told' [ "$(tail -n 1 err)" = 'hsc: standard input: header: event count 2, event offset 24, snapshot count 3, snapshot offset 48, spacing 1, sixth 1' ]

# A fault is told when it comes: the sender is still there, and would send more.
rm -f made.trace
for file in sixth.trace:24 illegal.trace:48 twice.trace:253; do
    { head -c "${file#*:}" "${file%:*}" && exec sleep 60; } > radio &
    sender=$!
    from radio try 1 receive made.trace
    says err "; seen after ${file#*:} bytes"
    verdict 'the sender is still there' kill "$sender"
done

# An image that is whole waits for the stream's end, however long: a byte more would be one too many.
{ cat two-events.trace && exec sleep 60; } > radio &
sender=$!
"$PROGRAM" receive made.trace < radio > out 2> err &
receiver=$!
sleep 1.5
verdict 'no file before the end' [ "$(find . -name made.trace -o -name '.hsc-*')" = '' ]
kill "$sender"
wait "$receiver"
verdict 'the image is whole when the sender ends' [ $? -eq 0 ]
same made.trace two-events.trace

# Over a file that is there, whose mode stays, and through a link.
echo 'not an image' > there
chmod 604 there
ln -s there link
from zero.trace try 0 receive link
says out 'written to link'
same there two-events.trace
verdict 'the link stays' [ "$(readlink link)" = there ]
verdict 'the mode stays' [ "$(stat -c %a there)" = 604 ]
cp zero.trace itself.trace
from itself.trace try 0 receive itself.trace
same itself.trace two-events.trace

# unread WORD..: the program fails before it reads anything.
unread() {
    record
    from two-events.trace try 2 "$@"
    record_no_more
    verdict "hsc $*: nothing is read" [ -s calls -a "$(grep -c -x read calls)" -eq 0 ]
    verdict "hsc $*: nothing on standard output" [ ! -s out ]
    verdict "hsc $*: leaves no temporary file" no_temporary
}

# What OUT cannot be is told before the sender is waited for.
mkdir folder
ln -s nowhere dangling
ln -s loop loop
for out in folder radio dangling loop /dev/null missing/out '' folder/ missing/ two-events.trace/x; do
    unread receive "$out"
    says err "hsc: $out: "
done
unread receive -
says err 'OUT: takes the name of a file, not standard output'
unread receive made.trace two-events.trace
says err 'two-events.trace: an image is received from standard input alone, which is -'
verdict 'nothing is made' [ ! -e nowhere -a ! -e missing ]
mkdir -m 555 shut
cp two-events.trace reader.trace
chmod 444 reader.trace
if [ "$nobody" != false ]; then
    user=$nobody
    unread receive shut/made.trace
    says err 'shut/made.trace: not written, no temporary file can be made in its folder: Permission denied'
    unread receive reader.trace
    says err 'reader.trace: cannot be opened: Permission denied'
    user=
else
    skip 'permissions need another user'
fi
chmod 755 shut

# A folder that is gone when the image is whole.
mkdir gone
record
{ cat two-events.trace && heard 1 && rmdir gone; } > radio &
from radio try 2 receive gone/made.trace
record_no_more
says err 'gone/made.trace: not written, its folder cannot be opened: No such file or directory'

# Standard input that is closed, or is no stream.
"$PROGRAM" receive made.trace <&- > out 2> err
verdict 'no standard input is refused as an empty one' [ $? -eq 1 ]
from folder try 2 receive made.trace 2> /dev/null
says err 'standard input: cannot be read: Is a directory'

# shown TEXT: waits until the terminal shows the text.
shown() {
    for i in $(seq 100); do
        ! grep -q -F "$1" out || break
        sleep 0.1
    done
}

# on_terminal COMMAND: runs it on a terminal, whose input is standard input and whose output goes to out.
on_terminal() {
    script -q -e -c "$1" /dev/null > out 2> err
}

if command -v script > /dev/null; then
    # On a terminal the user sees how far it has come, with the sender's pauses, and then the lines as ever.
    rm -f made.trace
    : > out
    {
        shown 'header: 0 of 24 bytes'
        head -c 10 two-events.trace
        shown 'header: 10 of 24 bytes'
        head -c 40 two-events.trace | tail -c +11
        shown ' 15% events 1 of 2 snapshots 2 acc 7'
        head -c 100 two-events.trace | tail -c +41
        shown ' 39% events 2 of 2 snapshots 3 acc 7'
        tail -c +101 two-events.trace
    } > radio &
    on_terminal "$PROGRAM receive made.trace < radio" < /dev/null
    verdict 'on a terminal: done' [ $? -eq 0 ]
    tr '\r' '\n' < out | sed 's/ *$//; /^$/d' > lines
    cat > wanted << END
waiting for the header: 0 of 24 bytes
waiting for the header: 10 of 24 bytes
 15% events 1 of 2 snapshots 2 acc 7
 39% events 2 of 2 snapshots 3 acc 7
100% events 2 of 2 snapshots 3 acc 7
events 2 snapshots 3 acc 7 out 0003 er 0 flags 00000780
table true as sent
written to made.trace
END
    same lines wanted
    same made.trace two-events.trace

    # A message stands below the line.
    on_terminal "$PROGRAM receive made.trace < illegal.trace" < /dev/null
    verdict 'refused on a terminal' [ $? -eq 1 ]
    verdict 'the message has its own line' [ "$(tr -d '\r' < out | tail -n 1)" = \
        'hsc: standard input: refused 5 at 1: this event is not legal; seen after 48 bytes' ]

    # Of bytes that come without a pause it is shown a few times in a second.
    record
    send two-events.trace 1 > radio &
    on_terminal "$PROGRAM receive made.trace < radio" < /dev/null
    record_no_more
    written=$(tr '\r' '\n' < out | grep -c '% events')
    verdict "the line is written anew, $written times, and not for every byte" [ "$written" -gt 2 -a "$written" -lt 200 ]
    same made.trace two-events.trace
    wait

    # The terminal at which the user sits is no sender.
    rm -f made.trace
    on_terminal "$PROGRAM receive made.trace" < /dev/null
    verdict 'a terminal: failed' [ $? -eq 2 ]
    says out 'standard input: a terminal that is not raw; a serial line is made so by stty raw'

    # A serial line, here a raw terminal, ends when all has come and nothing follows.
    : > out
    { shown 'header: 0 of 24'; cat two-events.trace; shown 'written to'; } |
        on_terminal "stty raw -echo && $PROGRAM receive made.trace"
    verdict 'a serial line: done' [ $? -eq 0 ]
    same made.trace two-events.trace
    rm -f made.trace
    : > out
    { shown 'header: 0 of 24'; cat two-events.trace; sleep 0.1; zeros 1; shown 'refused'; } |
        on_terminal "stty raw -echo && $PROGRAM receive made.trace"
    verdict 'a serial line with a byte too many: refused' [ $? -eq 1 ]
    says out 'refused 4 at 0'
    verdict 'nothing is written' [ ! -e made.trace ]
    : > err
else
    skip 'no script'
fi
