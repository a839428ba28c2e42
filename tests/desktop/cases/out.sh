# -o OUT and --dry-run, and - for standard input.

{ head -c 48 two-events.trace; zeros $((3 * 68)); } > zero.trace
{ header 2 1; event 5 0 9; event 9 0 3; snapshot 0 0; snapshot 9 0; snapshot 9 3; } > nine.trace

# -o: another file is made, with its mode by umask, and the image stays.
umask 027
keep zero.trace try 0 replay zero.trace -o made.trace
prints << END
events 2 snapshots 3 acc 7 out 0003 er 0 flags 00000780
table not true before: snapshot 0 differs first, 3 of 3 differ
written to made.trace
END
umask 022
same made.trace two-events.trace
verdict 'a new file has its mode by umask' [ "$(stat -c %a made.trace)" = 640 ]
keep two-events.trace try 0 mend -o "$(pwd)/made-too.trace" two-events.trace 0 one-event.patch
prints << END
1 event from place 0, 2 snapshots from index 1, none agreed; ran 2 of 2 events; table not checked
written to $(pwd)/made-too.trace
END
same made-too.trace nine.trace

# A table that is true is written to the other file all the same; a file that is there is replaced and keeps its mode,
# through a link too.
echo 'not an image' > there
chmod 604 there
ln -s there link
keep two-events.trace try 0 replay two-events.trace -o link
prints << END
events 2 snapshots 3 acc 7 out 0003 er 0 flags 00000780
table true before
written to link
END
same there two-events.trace
verdict 'the link stays' [ "$(readlink link)" = there ]
verdict 'the mode stays' [ "$(stat -c %a there)" = 604 ]

# The image itself is no other file.
cp zero.trace night.trace
ln -s night.trace night-link.trace
ln night.trace night-twin.trace
for out in night.trace ./night.trace night-link.trace night-twin.trace; do
    keep night.trace try 2 replay night.trace -o "$out"
    says err "$out: is the image itself; without -o it is written over"
done

# What OUT cannot be.
mkdir folder
mkfifo pipe
ln -s nowhere dangling
for out in folder pipe dangling /dev/null missing/out '' folder/ missing/; do
    keep zero.trace try 2 replay zero.trace -o "$out"
    says err "hsc: $out: "
    verdict "-o '$out': nothing on standard output" [ ! -s out ]
done
try 2 replay zero.trace -o -
says err 'takes the name of a file, not standard output'
verdict 'nothing is made' [ ! -e nowhere ]

# A refusal makes no file.
refuse 7 0 mend two-events.trace 9 one-event.patch -o refused.trace
verdict 'a refusal makes no file' [ ! -e refused.trace ]

# A file that another program makes meanwhile is left to it; a file system without links makes do.
faulty link:1:EEXIST try 2 replay zero.trace -o new.trace
says err 'new.trace: not written, its temporary file cannot be given its name: File exists'
verdict 'no temporary file, and none of its name' [ "$(find . -name '.hsc-*' -o -name new.trace)" = '' ]
faulty link:1:EPERM try 0 replay zero.trace -o new.trace
same new.trace two-events.trace
verdict 'no temporary file' no_temporary
faulty fchmod:1:EPERM try 0 replay zero.trace -o narrow.trace
says err 'narrow.trace: its mode is for its owner alone: Operation not permitted'
verdict 'the mode is narrow' [ "$(stat -c %a narrow.trace)" = 600 ]

# --dry-run: what would happen, and the very same file.
before=$(stat -c '%i %y %z' zero.trace)
keep zero.trace try 0 replay --dry-run zero.trace
prints << END
events 2 snapshots 3 acc 7 out 0003 er 0 flags 00000780
table not true before: snapshot 0 differs first, 3 of 3 differ
dry run: nothing is written
END
cp two-events.trace reader.trace
chmod 444 reader.trace
keep reader.trace try 0 mend reader.trace 0 one-event.patch --dry-run -o never.trace
prints << END
1 event from place 0, 2 snapshots from index 1, none agreed; ran 2 of 2 events; table not checked
dry run: nothing is written
END
verdict 'a dry run makes no file' [ ! -e never.trace ]
verdict 'a dry run leaves the file' [ "$(stat -c '%i %y %z' zero.trace)" = "$before" ]
keep zero.trace refuse 7 0 mend --dry-run zero.trace 3 one-event.patch

# - is standard input: an image that is read, and a patch. A pipe will do.
for words in 'check' 'info' 'replay --dry-run'; do
    try 0 $words two-events.trace
    cp out wanted
    from two-events.trace try 0 $words -
    same out wanted
done
from two-events.trace try 0 show - 2
from zero.trace try 0 replay - -o piped.trace
same piped.trace two-events.trace
cp two-events.trace night.trace
cat one-event.patch | "$PROGRAM" mend night.trace 0 - > out 2> err
same night.trace nine.trace
cat two-events.trace | FAULT=read:1:SHORT "$PROGRAM" mend - 0 one-event.patch -o night.trace > out 2> err
same night.trace nine.trace

# An image on standard input is refused as its file would be.
: > empty
head -c 23 two-events.trace > short.trace
head -c 251 two-events.trace > cut.trace
{ cat two-events.trace; zeros 1; } > longer.trace
head -c 24 two-events.trace > header.trace
for file in empty short.trace; do
    from "$file" refuse 1 0 check -
done
for file in cut.trace longer.trace header.trace; do
    from "$file" refuse 4 0 check -
    says err 'standard input: refused'
done
zeros 13 > odd.patch
keep two-events.trace from odd.patch refuse 7 0 mend two-events.trace 0 -
says err 'standard input: refused 7 at 0: the patch has 13 bytes'
keep two-events.trace from /dev/zero refuse 7 0 mend two-events.trace 0 -
says err 'the patch has more than 12582912 bytes'

# Where standard input makes no sense, that is told.
for words in 'replay -' 'mend - 0 one-event.patch'; do
    from two-events.trace try 2 $words
    says err 'standard input: cannot be written over; give -o OUT or --dry-run'
done
from two-events.trace try 2 mend - 0 - -o never.trace
says err 'standard input: cannot be both IMAGE and PATCH'
from folder try 2 check - 2> /dev/null
says err 'standard input: cannot be read: Is a directory'
"$PROGRAM" check - <&- > out 2> err
verdict 'no standard input is refused as an empty one' [ $? -eq 1 ]
