# System calls that fail, move less than was asked for, or are the last before a crash.

{ head -c 48 two-events.trace; zeros $((3 * 68)); } > old.trace
cp two-events.trace new.trace
{ header 2 1; event 5 0 9; event 9 0 3; snapshot 0 0; snapshot 9 0; snapshot 9 3; } > nine.trace
echo 'not an image' > words.trace

echo 'ACC 9' > nine.text
printf '0 ACC 9\n1 outputs 3\n' > two.text
head -c 48 two-events.trace | tail -c 24 > two.events

# writes FILE OLD NEW: what the next commands write; OLD is none where they make the file.
writes() {
    written=$1 old=$2 new=$3
}

# What the commands have for standard input.
input=/dev/null

# prepare: the files as they are before a command, and no temporary file.
prepare() {
    rm -f .hsc-* other.trace made.*
    cp old.trace night.trace
    [ "$old" = none ] || cp "$old" "$written"
}

# as_it_was: the file that is written has its old bytes, or is not there yet.
as_it_was() {
    if [ "$old" = none ]; then [ ! -e "$written" ]; else cmp -s "$written" "$old"; fi
}

# whole: it is as it was or as it is to be.
whole() {
    as_it_was || cmp -s "$written" "$new"
}

# none_or_told: no temporary file stays, but one that could not be removed and is told.
none_or_told() {
    no_temporary || grep -q '\.hsc-.*: cannot be removed' err
}

# one_fault HOW WORD..: runs the program while the call goes wrong; its exit status is in status.
one_fault() {
    prepare
    status=0
    one_how=$1
    shift
    FAULT=$call:$count:$one_how "$PROGRAM" "$@" < "$input" > out 2> err || status=$?
    verdict "hsc $*, $call $count: $one_how: $written is whole" whole
}

# each_fault WORD..: every call of the run fails, and is the last before a crash. The file is whole; a run that is done
# has written it, and one that is not says so in words.
: > made
each_fault() {
    prepare
    rm -f calls
    FAULT_CALLS=calls "$PROGRAM" "$@" < "$input" > out 2> err
    verdict "hsc $*: done" [ $? -eq 0 ]
    cat calls >> made
    for call in $(sort -u calls); do
        for count in $(seq "$(grep -c -x "$call" calls)"); do
            one_fault KILL "$@"
            verdict "hsc $*, killed before $call $count: exit status $status" [ "$status" -eq 137 ]
            one_fault EIO "$@"
            case $status in
            0) verdict "hsc $*, $call $count fails, the run is done: $written is new" cmp -s "$written" "$new" ;;
            2) says err 'hsc: ' ;;
            *) verdict "hsc $*, $call $count fails: exit status $status" false ;;
            esac
            verdict "hsc $*, $call $count fails: no temporary file, or one that is told" none_or_told
        done
    done
}

writes other.trace none new.trace
each_fault replay night.trace -o other.trace
writes other.trace words.trace new.trace
each_fault replay -o other.trace night.trace
writes night.trace new.trace nine.trace
each_fault mend --check night.trace 0 one-event.patch
writes night.trace old.trace new.trace
each_fault replay night.trace
writes made.patch none one-event.patch
each_fault encode nine.text made.patch
cp old.trace night.trace
"$PROGRAM" draw night.trace > night.svg
writes made.svg none night.svg
each_fault draw night.trace -o made.svg
writes made.trace none nine.trace
each_fault build two.text 1 made.trace
writes made.trace words.trace new.trace
each_fault build two.events 1 made.trace
input=old.trace
each_fault receive made.trace
writes made.trace none new.trace
each_fault receive made.trace -
input=/dev/null
for call in $FAULTY; do
    verdict "a writer calls $call" grep -q -x "$call" made
done

# The commands that only print.
writes night.trace new.trace new.trace
for words in 'info night.trace' 'events night.trace' 'show night.trace 1' 'state night.trace 1' \
    'draw night.trace' 'draw --csv night.trace --from 1' 'check night.trace' \
    'compare night.trace old.trace' 'compare --events one-event.patch one-event.patch' 'replay night.trace' \
    'mend --dry-run night.trace 0 one-event.patch'; do
    each_fault $words
done
writes night.trace old.trace new.trace

# fails CALL:N:ERRNO TEXT: replay fails with these words and leaves the image.
fails() {
    prepare
    keep night.trace faulty "$1" try 2 replay night.trace
    says err "$2"
}

fails open:2:EACCES 'night.trace: cannot be opened: Permission denied'
fails fstat:1:EIO 'night.trace: status cannot be read: Input/output error'
fails read:1:EIO 'night.trace: cannot be read: Input/output error'
fails read:2:EIO 'night.trace: cannot be read: Input/output error'
fails malloc:1:ENOMEM 'night.trace: no memory for the image: Cannot allocate memory'
fails fcntl:1:EIO 'night.trace: cannot be locked: Input/output error'
fails fstat:2:EIO 'night.trace: status cannot be read: Input/output error'
fails stat:1:EACCES 'night.trace: the file of this name cannot be found again: Permission denied'
fails malloc:2:ENOMEM 'night.trace: no memory for the table: Cannot allocate memory'
fails realpath:1:EACCES 'not written, its path cannot be resolved: Permission denied'
fails malloc:4:ENOMEM 'not written, no memory for its path: Cannot allocate memory'
fails open:3:EACCES 'not written, its folder cannot be opened: Permission denied'
fails mkstemp:1:EROFS 'not written, no temporary file can be made in its folder: Read-only file system'
fails write:1:ENOSPC 'not written, its temporary file cannot be written: No space left on device'
fails fchmod:1:EPERM 'not written, its mode cannot be kept: Operation not permitted'
fails fsync:1:EIO 'not written, its temporary file cannot be brought to the disk: Input/output error'
fails close:2:ENOSPC 'not written, its temporary file cannot be closed: No space left on device'
fails lstat:1:EIO 'not written, its status cannot be read: Input/output error'
fails sigaction:2:EIO 'not written, signals cannot be held: Input/output error'
fails sigpending:1:EIO 'not written, a signal came first'
fails rename:1:ENOSPC 'not written, its temporary file cannot be given its name: No space left on device'

# receive_fails CALL:N:ERRNO TEXT: so does receive, and leaves OUT.
receive_fails() {
    cp words.trace made.trace
    keep made.trace faulty "$1" from old.trace try 2 receive made.trace
    says err "$2"
    verdict 'nothing on standard output' [ ! -s out ]
}

receive_fails open:2:EACCES 'made.trace: cannot be opened: Permission denied'
receive_fails open:3:EACCES 'made.trace: cannot be opened: Permission denied'
receive_fails malloc:1:ENOMEM 'made.trace: not written, no memory for its path: Cannot allocate memory'
receive_fails access:1:EROFS 'made.trace: not written, no temporary file can be made in its folder: Read-only file system'
receive_fails fstat:2:EIO 'standard input: status cannot be read: Input/output error'
receive_fails poll:1:ENOMEM 'standard input: cannot be waited for: Cannot allocate memory'
receive_fails read:1:EIO 'standard input: cannot be read: Input/output error'
receive_fails read:2:EIO 'standard input: cannot be read: Input/output error'
receive_fails malloc:3:ENOMEM 'standard input: no memory for the image: Cannot allocate memory'
receive_fails malloc:4:ENOMEM 'standard input: no memory for the table: Cannot allocate memory'
receive_fails mkstemp:1:EROFS 'not written, no temporary file can be made in its folder: Read-only file system'
receive_fails write:1:ENOSPC 'not written, its temporary file cannot be written: No space left on device'
receive_fails fsync:1:EIO 'not written, its temporary file cannot be brought to the disk: Input/output error'
receive_fails close:3:ENOSPC 'not written, its temporary file cannot be closed: No space left on device'
receive_fails rename:1:ENOSPC 'not written, its temporary file cannot be given its name: No space left on device'
cp words.trace made.trace
faulty fsync:2:EIO from old.trace try 2 receive made.trace
says err 'made.trace: written, but its folder cannot be brought to the disk: Input/output error'
same made.trace new.trace

# What cannot be removed is told by its name.
prepare
faulty rename:1:EIO,unlink:1:EACCES try 2 replay night.trace
says err 'cannot be removed: Permission denied'
same night.trace old.trace
verdict 'the temporary file stays' [ "$(find . -name '.hsc-*' | wc -l)" -eq 1 ]

# After the rename the image is new, and what is not sure is told.
prepare
faulty fsync:2:EIO try 2 replay night.trace
says err 'written, but its folder cannot be brought to the disk: Input/output error'
same night.trace new.trace

# An owner that cannot be kept is told and is no failure. A new group may do no more than others could.
prepare
chmod 764 night.trace
faulty fchown:1:EPERM try 0 replay night.trace
says err 'the owner is not kept: Operation not permitted'
same night.trace new.trace
verdict 'the mode stays' [ "$(stat -c %a night.trace)" = 764 ]
cp old.trace night.trace
faulty fchown:1:EPERM,fchown:2:EPERM try 0 replay night.trace
says err 'the group is not kept: Operation not permitted'
verdict 'the group has what it and others had' [ "$(stat -c %a night.trace)" = 744 ]

# A file that is not written: that is told first, and of its owner nothing.
prepare
keep night.trace faulty fchown:1:EPERM,fchown:2:EPERM,rename:1:EIO try 2 replay night.trace
verdict 'the failure is told first' [ "$(head -n 1 err)" = \
    'hsc: night.trace: not written, its temporary file cannot be given its name: Input/output error' ]
verdict 'the owner is not told' [ "$(grep -c 'not kept' err)" -eq 0 ]

# Interrupted and short moves are gone on with.
for fault in read:1:EINTR read:2:EINTR write:1:EINTR read:1:SHORT write:1:SHORT; do
    prepare
    faulty "$fault" try 0 replay night.trace
    same night.trace new.trace
    faulty "$fault" try 0 mend night.trace 0 one-event.patch
    faulty "$fault" try 0 check night.trace
done
for fault in poll:1:EINTR poll:2:EINTR read:1:EINTR read:2:EINTR write:1:EINTR read:1:SHORT write:1:SHORT; do
    rm -f made.trace
    faulty "$fault" from old.trace try 0 receive made.trace
    same made.trace new.trace
done

# A signal before the rename: the image is as it was. One that comes later waits until the line is told.
for fault in mkstemp:1:TERM write:1:TERM fsync:1:TERM lstat:1:TERM; do
    prepare
    keep night.trace faulty "$fault" try 143 replay night.trace
    says err 'not written, a signal came first'
    cp words.trace made.trace
    keep made.trace faulty "$fault" from old.trace try 143 receive made.trace
done
for fault in poll:1:TERM read:1:TERM poll:2:TERM read:2:TERM; do
    cp words.trace made.trace
    keep made.trace faulty "$fault" from old.trace try 143 receive made.trace
    verdict "$fault: no message" [ "$(grep -c hsc: err)" -eq 0 ]
done
for fault in rename:1:TERM fsync:2:TERM; do
    prepare
    faulty "$fault" try 0 replay night.trace
    says out 'events 2 snapshots 3'
    same night.trace new.trace
    verdict "$fault: no temporary file" no_temporary
    cp words.trace made.trace
    faulty "$fault" from old.trace try 0 receive made.trace
    says out 'written to made.trace'
    same made.trace new.trace
done

# An image that another program changes while it is read, or before it is replaced.
FAULT_FILE=night.trace
export FAULT_FILE
head -c 100 old.trace > cut.trace
prepare
faulty read:2:CUT try 2 check night.trace
says err 'became shorter while it was read'
for call in write lstat; do
    prepare
    faulty "$call:1:CUT" try 2 replay night.trace
    says err 'not written, it was changed since it was read'
    same night.trace cut.trace
    verdict "changed at $call: no temporary file" no_temporary
done
unset FAULT_FILE

# The other commands without memory.
prepare
keep night.trace faulty malloc:1:ENOMEM try 2 mend night.trace 0 one-event.patch
says err 'one-event.patch: no memory for its bytes'
faulty malloc:2:ENOMEM try 2 check night.trace
says err 'no memory for the table'
keep night.trace faulty read:1:EIO try 2 mend night.trace 0 one-event.patch
says err 'one-event.patch: cannot be read'
