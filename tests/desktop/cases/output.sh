# Standard streams that are full or closed, and disks that are.

for words in --help --version help 'help mend' 'info two-events.trace' 'events two-events.trace' \
    'show two-events.trace 0' 'state two-events.trace' 'draw two-events.trace' \
    'draw --csv two-events.trace' 'check two-events.trace' \
    'compare two-events.trace two-events.trace' 'replay two-events.trace'; do
    status=0
    "$PROGRAM" $words > /dev/full 2> err || status=$?
    verdict "hsc $words > /dev/full: exit status $status" [ "$status" -eq 2 ]
    says err 'standard output: cannot be written: No space left on device'
    status=0
    "$PROGRAM" $words >&- 2> err || status=$?
    verdict "hsc $words >&-: exit status $status" [ "$status" -eq 2 ]
    says err 'standard output: cannot be written: Bad file descriptor'
done

# More than one buffer of output.
yes blank | head -n 4096 > many.txt
try 0 build many.txt 4096 many.trace
status=0
"$PROGRAM" events many.trace > /dev/full 2> err || status=$?
verdict "a long output to a full disk: exit status $status" [ "$status" -eq 2 ]
says err 'standard output'
status=0
"$PROGRAM" draw --csv many.trace > /dev/full 2> err || status=$?
verdict "a long drawing to a full disk: exit status $status" [ "$status" -eq 2 ]
says err 'standard output'

# No stream at all: the image is replaced, or left, but never written into.
{ head -c 48 two-events.trace; zeros $((3 * 68)); } > zero.trace
status=0
"$PROGRAM" replay zero.trace <&- >&- 2>&- || status=$?
verdict "hsc replay with no streams: exit status $status" [ "$status" -eq 2 ]
same zero.trace two-events.trace
status=0
"$PROGRAM" mend zero.trace 9 one-event.patch <&- >&- 2>&- || status=$?
verdict "hsc mend with no streams, refused: exit status $status" [ "$status" -eq 1 ]
same zero.trace two-events.trace

# A line about a written file that is lost: the file is written, and that is told.
for words in 'replay zero.trace' 'mend zero.trace 0 one-event.patch' 'replay zero.trace -o other.trace' \
    'receive received.trace'; do
    { head -c 48 two-events.trace; zeros $((3 * 68)); } > zero.trace
    status=0
    "$PROGRAM" $words < zero.trace > /dev/full 2> err || status=$?
    verdict "hsc $words > /dev/full: exit status $status" [ "$status" -eq 2 ]
    says err '.trace: written, but the line about it cannot be printed: No space left on device'
done
same other.trace two-events.trace
same received.trace two-events.trace

# The limit on the size of files stands for a full disk: the messages go through a pipe.
{ head -c 48 two-events.trace; zeros $((3 * 68)); } > zero.trace
cp zero.trace kept.trace
for words in 'replay zero.trace' 'mend zero.trace 0 one-event.patch' 'receive zero.trace'; do
    message=$( (ulimit -f 0 && exec "$PROGRAM" $words < two-events.trace) 2>&1 > /dev/null)
    verdict "hsc $words over the limit: exit status" [ $? -eq 2 ]
    verdict "hsc $words over the limit is told: $message" [ "$message" != "${message#*File too large}" ]
    same zero.trace kept.trace
    verdict "hsc $words over the limit: no temporary file" no_temporary
done

# A disk of two pages, one of them the image's, in a mount of its own.
mkdir disk
if [ "$(id -u)" -eq 0 ] && unshare -m mount -t tmpfs -o size=8k none disk 2> /dev/null; then
    unshare -m sh -c '
        mount -t tmpfs -o size=8k none disk && cd disk || exit 97
        cp ../kept.trace disk.trace && head -c 4096 /dev/zero > filler || exit 96
        "$1" replay disk.trace 2> ../err
        [ $? -eq 2 ] || exit 95
        cmp -s disk.trace ../kept.trace || exit 94
        [ "$(ls -A)" = "$(printf "disk.trace\nfiller")" ] || exit 93
        for out in disk.trace new.trace; do
            "$1" receive "$out" < ../two-events.trace 2>> ../err
            [ $? -eq 2 ] || exit 90
            cmp -s disk.trace ../kept.trace || exit 89
            [ "$(ls -A)" = "$(printf "disk.trace\nfiller")" ] || exit 88
        done
        rm filler && "$1" replay disk.trace > /dev/null || exit 92
        cmp -s disk.trace ../two-events.trace || exit 91
        "$1" receive disk.trace < ../kept.trace > /dev/null || exit 87
        cmp -s disk.trace ../two-events.trace || exit 86
    ' sh "$PROGRAM"
    status=$?
    verdict "a full disk: $status" [ "$status" -eq 0 ]
    verdict 'a full disk is told each time' [ "$(grep -c 'No space left on device' err)" -eq 3 ]
else
    skip 'a full disk needs root and a mount'
fi
