# Signals at any time, and readers that have gone away: a file is written and told, or it is as it was.

verdict 'interrupt.c builds' $CC -std=c11 $WARNINGS -D_XOPEN_SOURCE=700 -o interrupt "$root/tests/desktop/interrupt.c"

# An image of 2048 blanks without its table, which takes some time to be written.
{ header 2048 1; zeros $((2048 * 12 + 2049 * 68)); } > old.trace
cp old.trace new.trace
try 0 replay new.trace
sed '2,$d' out > line

# microseconds: the time, to count from.
microseconds() {
    echo $(($(date +%s%N) / 1000))
}

# The time that one run takes, several times over.
started=$(microseconds)
for i in 1 2 3 4 5 6 7 8; do
    cp old.trace night.trace
    ./interrupt 0 0 "$PROGRAM" replay night.trace > out
done
takes=$((($(microseconds) - started) / 8))

# A number that depends on nothing but the last one.
chance=11
another_chance() {
    chance=$(((chance * 1103515245 + 12345) % 2147483648))
}

# as_it_was FILE: it has its old bytes, or is not there yet.
as_it_was() {
    if [ "$1" = night.trace ]; then cmp -s night.trace old.trace; else [ ! -e "$1" ]; fi
}

# judge SIGNAL FILE: one run that got the signal: the file is new, status 0 and the line is told; or it is as it was,
# and the program was ended by the signal.
judge() {
    if as_it_was "$2"; then
        before=$((before + 1))
        [ "$status" -eq $((128 + $1)) ] || wrong=$((wrong + 1))
    else
        after=$((after + 1))
        cmp -s "$2" new.trace || wrong=$((wrong + 1))
        [ "$status" -eq 0 ] && sed '2,$d' out | cmp -s - line || silent=$((silent + 1))
    fi
    no_temporary || left=$((left + 1))
}

# signals ROUNDS FILE WORD..: a signal in each run of the program, which writes the file. Standard input is an image.
signals() {
    rounds=$1 file=$2 before=0 after=0 silent=0 wrong=0 left=0
    shift 2
    for round in $(seq "$rounds"); do
        case $((round % 3)) in
        0) signal=1 ;;
        1) signal=2 ;;
        *) signal=15 ;;
        esac
        another_chance
        rm -f .hsc-* made.trace
        cp old.trace night.trace
        status=0
        ./interrupt "$signal" $((chance / 256 % takes)) "$PROGRAM" "$@" < new.trace > out 2> err || status=$?
        judge "$signal" "$file"
    done
    echo "signals: $rounds sent, $before before the rename, $after later; $silent silent changes, $left temporary files"
    : > err
    verdict "hsc $*: $silent runs changed the file and did not tell it" [ "$silent" -eq 0 ]
    verdict "hsc $*: $wrong runs ended in another way" [ "$wrong" -eq 0 ]
    verdict "hsc $*: $left runs left a temporary file" [ "$left" -eq 0 ]
    verdict "hsc $*: some signals came before the rename" [ "$before" -gt 0 ]
}

signals 200 night.trace replay night.trace
signals 100 made.trace replay night.trace -o made.trace
signals 100 made.trace receive made.trace

# A signal while the sender is waited for, before its first byte and after some: nothing is there that could stay.
rm -f made.trace
mkfifo radio
for size in 0 10 100 60000; do
    { head -c "$size" new.trace && exec sleep 60; } > radio &
    sender=$!
    status=0
    ./interrupt 2 500000 "$PROGRAM" receive made.trace < radio > out 2> err || status=$?
    kill "$sender"
    verdict "a signal after $size bytes: exit status $status" [ "$status" -eq 130 ]
    verdict "a signal after $size bytes: no file, and none that is temporary" [ "$(find . -name made.trace -o -name '.hsc-*')" = '' ]
    verdict "a signal after $size bytes: nothing is told" [ ! -s out -a ! -s err ]
done

# A reader of standard output that has gone away: the file is written, and that the line is lost is told.
for words in 'replay night.trace' 'mend night.trace 0 one-event.patch' 'replay night.trace -o other.trace' \
    'receive received.trace'; do
    cp old.trace night.trace
    { FAULT=fsync:1:DELAY "$PROGRAM" $words < old.trace 2> err; echo $? > status; } | :
    verdict "hsc $words, no reader: exit status $(cat status)" [ "$(cat status)" -eq 2 ]
    says err '.trace: written, but the line about it cannot be printed: Broken pipe'
done
same other.trace new.trace
same received.trace new.trace

# A reader that has gone away ends a command that only prints, as it does others.
{ FAULT=read:1:DELAY "$PROGRAM" check new.trace 2> err; echo $? > status; } | :
verdict "hsc check, no reader: exit status $(cat status)" [ "$(cat status)" -eq 141 ]

# A signal that is ignored, as under nohup, changes nothing.
cp old.trace night.trace
status=0
(trap '' TERM && FAULT=write:1:TERM exec "$PROGRAM" replay night.trace > out 2> err) || status=$?
verdict "an ignored signal: exit status $status" [ "$status" -eq 0 ]
same night.trace new.trace
