# What the cases are written with: runs of the program and what is held of them. Sourced by run.
#
# The program's output is in the file out, its messages in err.

version=$(sed -n 's/^#define HSC_VERSION "\(.*\)"/\1/p' include/hsc.h)
passed=0
failed=0
skipped=0

# verdict WHAT COMMAND..: one test; the command says whether it passed.
verdict() {
    verdict_what=$1
    shift
    if "$@"; then
        passed=$((passed + 1))
    else
        failed=$((failed + 1))
        echo "failed: $part: $verdict_what"
        [ ! -s err ] || sed 's/^/    err: /' err
    fi
}

skip() {
    skipped=$((skipped + 1))
    echo "skipped: $part: $1"
}

# no_temporary: nothing of a replacement is left in this folder.
no_temporary() {
    [ -z "$(find . -name '.hsc-*')" ]
}

# The command that runs the program: it itself, or another user's.
user=

# What user can be, so that the program is not run by root; false where there is no such command.
nobody=
if [ "$(id -u)" -eq 0 ]; then
    nobody='setpriv --reuid=65534 --regid=65534 --clear-groups'
    $nobody true 2> /dev/null || nobody=false
fi

# try STATUS WORD..: runs the program, expects the exit status.
try() {
    try_want=$1
    shift
    status=0
    $user "$PROGRAM" "$@" > out 2> err || status=$?
    verdict "hsc $*: exit status $status, expected $try_want" [ "$status" -eq "$try_want" ]
}

# refuse NUMBER PLACE WORD..: runs the program; it refuses with number and place, and prints nothing.
refuse() {
    refuse_text="refused $1 at $2:"
    shift 2
    try 1 "$@"
    says err "$refuse_text"
    verdict "hsc $*: nothing on standard output" [ ! -s out ]
}

# keep FILE COMMAND..: runs the command; the file keeps its bytes, and no temporary file stays.
keep() {
    keep_file=$1
    shift
    cp "$keep_file" "$work/kept"
    "$@"
    verdict "$*: leaves $keep_file byte for byte" cmp -s "$keep_file" "$work/kept"
    verdict "$*: leaves no temporary file" no_temporary
}

# says FILE TEXT: the output or the messages hold the text.
says() {
    verdict "$1 says: $2" grep -q -F -e "$2" "$1"
}

# prints: the output is what standard input has.
prints() {
    cat > "$work/wanted"
    verdict "the output is as expected" cmp -s "$work/wanted" out
}

same() {
    verdict "$1 equals $2" cmp -s "$1" "$2"
}

# zeros SIZE
zeros() {
    head -c "$1" /dev/zero
}

# from FILE COMMAND..: runs the command with the file as standard input.
from() {
    from_file=$1
    shift
    "$@" < "$from_file"
}

# faulty CALL:N:HOW COMMAND..: runs the command while that call of the program goes wrong (fault.c).
faulty() {
    FAULT=$1
    export FAULT
    shift
    "$@"
    unset FAULT
}

# over FILE PLACE NUMBER..: puts 4-byte numbers over the file's bytes from this place.
over() {
    over_file=$1 over_place=$2
    shift 2
    numbers 4 "$@" | dd of="$over_file" bs=1 seek="$over_place" conv=notrunc 2> /dev/null
}
