# Several programs that write one image at once: every edit of a run that exited with 0 is in the file.

# The image of 40 events, twice: as it is after the patches of even rounds, and of odd ones.
{ header 40 4; zeros $((40 * 12 + 11 * 68)); } > start.trace
for turn in 0 1; do
    cp start.trace "turn-$turn.trace"
    for process in 1 2 3 4; do
        event 5 0 $((100 * turn + process)) > "patch-$turn-$process"
        "$PROGRAM" mend "turn-$turn.trace" $((process * 9)) "patch-$turn-$process" > /dev/null
    done
    "$PROGRAM" replay "turn-$turn.trace" > /dev/null
done

# edit_is_there FILE PROCESS: the file has this process's event of the round.
edit_is_there() {
    cmp -s -n 12 -i $((24 + 12 * 9 * $2)):0 "$1" "patch-$turn-$2"
}

# one_round PROCESSES: all mend at once; the processes whose run is done are in done, the others are counted.
one_round() {
    racing=
    for process in $(seq "$1"); do
        "$PROGRAM" mend race.trace $((process * 9)) "patch-$turn-$process" > "out-$process" 2>&1 &
        racing="$racing $!"
    done
    process=0
    for number in $racing; do
        process=$((process + 1))
        if wait "$number"; then done="$done $process"; else undone=$((undone + 1)); fi
    done
}

# race PROCESSES ROUNDS: counts the edits that are lost though their run was done.
race() {
    lost=0 undone=0
    cp turn-0.trace race.trace
    for round in $(seq "$2"); do
        turn=$((round % 2)) done=
        one_round "$1"
        for process in $done; do
            edit_is_there race.trace "$process" || lost=$((lost + 1))
        done
    done
    echo "lock: $1 processes, $2 rounds: $lost edits lost, $undone runs not done"
    verdict "$1 processes, $2 rounds: $lost edits are lost" [ "$lost" -eq 0 ]
    verdict "$1 processes, $2 rounds: $undone runs are not done" [ "$undone" -eq 0 ]
    verdict "$1 processes: no temporary file" no_temporary
    try 0 check race.trace
}

race 2 150
race 4 100
same race.trace turn-0.trace

# meanwhile WORD..: starts the program and stops it right before its rename.
meanwhile() {
    FAULT=rename:1:STOP "$PROGRAM" "$@" > slow.out 2> slow.err &
    slow=$!
    for i in $(seq 500); do
        ! grep -q ') T ' "/proc/$slow/stat" 2> /dev/null || break
        sleep 0.02
    done
}

# soon: lets it go on when the next command has come to wait for it.
soon() {
    { sleep 0.3 && kill -CONT "$slow"; } &
}

# slow_is_done STATUS
slow_is_done() {
    status=0
    wait "$slow" || status=$?
    verdict "the slow run: exit status $status" [ "$status" -eq "$1" ]
}

# One mend stands before its rename: the other one's edit is not lost.
turn=1
cp turn-0.trace race.trace
meanwhile mend race.trace 9 patch-1-1
soon
try 0 mend race.trace 18 patch-1-2
slow_is_done 0
verdict 'the edit of the slow mend is there' edit_is_there race.trace 1
verdict 'the edit of the other mend is there' edit_is_there race.trace 2
verdict 'no message that is not for a terminal' [ ! -s err ]

# So with links, with replay, with -o over the same file, and with an image that is received.
ln -s race.trace link.trace
cp turn-0.trace race.trace
meanwhile mend link.trace 9 patch-1-1
soon
try 0 mend race.trace 18 patch-1-2
slow_is_done 0
verdict 'the edit through the link is there' edit_is_there race.trace 1
verdict 'the edit of the other mend is there' edit_is_there race.trace 2
{ head -c $((24 + 40 * 12)) turn-0.trace; zeros $((11 * 68)); } > race.trace
meanwhile replay race.trace
soon
try 0 mend --check race.trace 18 patch-1-2
slow_is_done 0
verdict 'the edit after the replay is there' edit_is_there race.trace 2
try 0 check race.trace
cp turn-0.trace race.trace
meanwhile mend race.trace 9 patch-1-1
soon
try 0 replay turn-1.trace -o race.trace
slow_is_done 0
same race.trace turn-1.trace
cp turn-0.trace race.trace
meanwhile mend race.trace 9 patch-1-1
soon
from turn-1.trace try 0 receive race.trace
slow_is_done 0
same race.trace turn-1.trace

# A receiver that waits for its sender holds no lock.
mkfifo radio
cp turn-0.trace race.trace
FAULT_CALLS=calls "$PROGRAM" receive race.trace < radio > slow.out 2> slow.err &
slow=$!
exec 3> radio
head -c 100 turn-1.trace >&3
for i in $(seq 500); do
    [ "$(cat calls 2> /dev/null | grep -c -x poll)" -lt 2 ] || break
    sleep 0.02
done
try 0 mend race.trace 18 patch-1-2
verdict 'the edit of the mend is there meanwhile' edit_is_there race.trace 2
tail -c +101 turn-1.trace >&3
exec 3>&-
slow_is_done 0
same race.trace turn-1.trace

# Each the other one's OUT: neither waits for ever.
cp turn-0.trace one.trace
cp turn-0.trace other.trace
meanwhile mend one.trace 9 patch-1-1 -o other.trace
soon
try 0 mend other.trace 9 patch-1-1 -o one.trace
slow_is_done 0
same one.trace other.trace

# Readers and dry runs do not wait.
cp turn-0.trace race.trace
meanwhile mend race.trace 9 patch-1-1
try 0 check race.trace
try 0 mend --dry-run race.trace 18 patch-1-2
same race.trace turn-0.trace
kill -CONT "$slow"
slow_is_done 0

# The lock dies with its process.
cp turn-0.trace race.trace
meanwhile mend race.trace 9 patch-1-1
kill -KILL "$slow"
try 0 mend race.trace 18 patch-1-2
slow_is_done 137
verdict 'the edit after the killed mend is there' edit_is_there race.trace 2
rm -f .hsc-*

# A wait is told once on a terminal.
if command -v script > /dev/null; then
    cp turn-0.trace race.trace
    meanwhile mend race.trace 9 patch-1-1
    : > out
    { for i in $(seq 100); do ! grep -q waiting out || break; sleep 0.1; done && kill -CONT "$slow"; } &
    script -q -e -c "$PROGRAM mend race.trace 18 patch-1-2" /dev/null < /dev/null > out 2> err
    verdict 'the wait on a terminal' [ $? -eq 0 ]
    verdict 'the wait is told once' [ "$(grep -c 'race.trace: waiting until another program has' out)" -eq 1 ]
    slow_is_done 0
    verdict 'the edit after the wait is there' edit_is_there race.trace 2
else
    skip 'no script'
fi
