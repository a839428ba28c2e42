# Words on the command line.

for words in --help -h help; do
    try 0 $words
    says out 'usage: hsc COMMAND'
    cp out "help$words"
    for command in info events show state draw check compare replay mend encode build receive help; do
        says out "  hsc $command "
    done
done
same help--help help-h
same help--help helphelp
for command in info events show state draw check compare replay mend encode build receive help; do
    try 0 help "$command"
    says out "usage: hsc $command "
    cp out described
    for word in --help -h; do
        try 0 "$command" "$word"
        same out described
    done
done
try 0 mend a --help
prints << END
usage: hsc mend [--check] [--dry-run] [-o OUT] IMAGE FIRST PATCH
  put PATCH over the events from FIRST and mend the table
  --check    compare the whole table first; one that is not true is refused
  --dry-run  say what would happen and write nothing
  -o         write the file OUT and leave the image as it is
END
try 0 draw -h
prints << END
usage: hsc draw [--count N] [--csv] [--from N] [-o OUT] IMAGE
  make a picture (SVG) of the counts, on standard output or as the file OUT
  --count    so many events, else as many as there are
  --csv      lines of place and count instead of a picture
  --from     from the event at this place on, else from the first
  -o         write the file OUT and leave the image as it is
END
try 2 help nonsense
says err 'nonsense: no such command'

try 0 --version
prints << END
hsc $version
END

for words in '' nonsense --nonsense; do
    try 2 $words
    says err 'usage: hsc COMMAND'
    verdict "hsc $words: nothing on standard output" [ ! -s out ]
done
for words in info replay check show mend events state encode build 'info a b' 'replay a b' 'show a' 'show a 1 2' \
    'mend a 1' 'mend a 1 b c' 'events a 1 2 3' 'state a 1 2' 'encode a' 'encode a b c' 'build a 1' 'build a 1 b c' \
    receive 'receive a - b' 'receive -o a' 'receive --dry-run a' \
    compare 'compare a' 'compare a b c' 'compare --bare a b' 'compare --all a b --all' 'check --events a' \
    draw 'draw a b' 'draw --from' 'draw a --count' 'draw a --from 1 --from 2' 'draw --gaps a' 'draw a -o' \
    'events --csv a' 'events --from 1 a' 'events --gaps a' 'encode --bare a b' 'help a b' 'info -x' 'info --' 'info --check a' 'replay -o' 'replay a -o' 'mend --dry-run a 1 b --dry-run'; do
    try 2 $words
    says err "usage: hsc ${words%% *} "
    verdict "hsc $words: nothing on standard output" [ ! -s out ]
done

for number in '' x 1x -1 +1 ' 1' 0x1 1.0 18446744073709551616; do
    keep two-events.trace try 2 mend -- two-events.trace "$number" one-event.patch
    says err "FIRST: '$number' is "
    try 2 show -- two-events.trace "$number"
    says err "J: '$number' is "
    try 2 events -- two-events.trace "$number"
    says err "FROM: '$number' is "
    try 2 events -- two-events.trace 0 "$number"
    says err "COUNT: '$number' is "
    try 2 draw --from "$number" two-events.trace
    says err "--from: '$number' is "
    verdict "hsc draw --from '$number': nothing on standard output" [ ! -s out ]
    try 2 draw --count "$number" two-events.trace
    says err "--count: '$number' is "
    try 2 state -- two-events.trace "$number"
    says err "EVENT: '$number' is "
    try 2 build -- two-events.trace "$number" out.trace
    says err "K: '$number' is "
done

cp two-events.trace ./-dashed
try 0 info -- -dashed
try 0 show -- -dashed 2
try 0 draw -- -dashed
try 0 check -- -dashed
try 0 compare -- -dashed -dashed
try 0 replay -- -dashed
try 0 mend -- -dashed 1 one-event.patch
try 0 mend --dry-run -- -dashed 1 one-event.patch
