# hsc draw.

# well_formed FILE: it is XML; if xmllint is here, it says so too.
well_formed() {
    awk -f "$root/tests/desktop/xml.awk" "$1" && { ! command -v xmllint > /dev/null || xmllint --noout "$1" 2> err; }
}

# draws FILE WORD..: the picture of these words is the file, and XML.
draws() {
    draws_file=$1
    shift
    try 0 draw "$@"
    cp out "$draws_file"
    verdict "$draws_file is XML" well_formed "$draws_file"
    verdict "$draws_file tells nothing else" [ ! -s err ]
}

# path NAME FILE: the line of the path of this name.
path() {
    sed -n "s/^<path id=\"$1\".* d=\"\([^\"]*\)\".*/\1/p" "$2"
}

# height COUNT FILE: how far down the picture has this number of its vertical axis.
height() {
    sed 's/&#160;//g' "$2" | awk -v count="$1" '
        /^<g text-anchor="end">$/ { inside = 1 }
        /^<\/g>/ { exit }
        inside && match($0, />-?[0-9]+</) && substr($0, RSTART + 1, RLENGTH - 2) == count {
            split($0, part, "\"")
            print part[4] - 4
        }'
}

# follows SVG CSV: the curve has every count, or the lowest, highest and last of every column.
follows() {
    awk -f "$root/tests/desktop/curve.awk" "$1" "$2" > err
}

# The example is what the program draws; on standard output, by its name alone, and as a file with two lines about it.
mkdir folder
try 0 build "$root/examples/small-night.txt" 8 folder/small-night.trace
keep folder/small-night.trace draws small.svg folder/small-night.trace
same small.svg "$root/examples/small-night.svg"
keep folder/small-night.trace try 0 draw folder/small-night.trace -o made.svg
prints << END
54 events from place 0
written to made.svg
END
same made.svg small.svg
draws piped.svg - < folder/small-night.trace
says piped.svg '<title>standard input: events 0 to 53 of 54</title>'
cp folder/small-night.trace night.trace
for locale in $(locale -a 2> /dev/null | grep -v -x -e C -e POSIX | head -n 3); do
    LC_ALL=$locale "$PROGRAM" draw folder/small-night.trace > out
    same out small.svg
done

# Its words: the title from the image's numbers, the axes, the lines with their values, the marks and how many.
for words in '>small-night.trace</text>' \
    '>events 0 to 53 of 54, 7 snapshots, spacing 8; count 0 before, -2 after, lowest -4, highest 8</text>' \
    '>count (ACC)</text>' '>place of the event</text>' '>-4</text>' '>8</text>' '>50</text>' '>HIP 6</text>' \
    '>HIP 3</text>' '>LOP -2</text>' '>OVF 8</text>' '>UNF -4</text>' '>HIP, high preset</text>' \
    '>UNF, underflow limit</text>' '>1 rollover past OVF</text>' '>1 reset</text>' \
    '>4 blank events in 1 gap, shaded</text>'; do
    says small.svg "$words"
done
verdict 'nothing is past UNF' [ "$(grep -c 'past UNF' small.svg)" -eq 0 ]

# The curve in steps: with 54 events a place is 960/54 columns wide.
verdict 'the curve begins at the frame, with 0' [ "$(path count small.svg | cut -d V -f 1)" = \
    "M110 $(height 0 small.svg)H270" ]
verdict 'it ends on LOP' [ "$(path count small.svg | sed 's/.*V/V/')" = "V$(height -2 small.svg)H1088" ]
verdict 'HIP holds from its load on, and moves' [ "$(path HIP small.svg)" = \
    "M234 $(height 6 small.svg)H785V$(path HIP small.svg | sed 's/.*V//; s/H.*//')H1088" ]
verdict 'blank events are from place 26 to 29' [ "$(path gaps small.svg | cut -d v -f 1)" = 'M590 141h71' ]
verdict 'no script, no reference' [ "$(grep -c -i -e script -e href -e url small.svg)" -eq 0 ]

# The counts are the ACC of hsc state, event by event.
try 0 draw --csv folder/small-night.trace
cp out small.csv
verdict 'a line for every event' [ "$(wc -l < small.csv)" -eq 55 ]
verdict 'the first line' [ "$(head -n 1 small.csv)" = place,count ]
for place in 0 7 8 9 23 24 25 33 34 44 53; do
    try 0 state folder/small-night.trace $((place + 1))
    verdict "the count after event $place" [ "$(sed -n "s/^$place,//p" small.csv)" = "$(sed -n 's/^ACC *//p' out)" ]
done
verdict 'the curve has every count' follows small.svg small.csv
try 0 draw --csv folder/small-night.trace -o made.csv
same made.csv small.csv

# A part of the night: the same counts, from the state before it.
try 0 draw --csv --from 23 --count 3 folder/small-night.trace
prints << END
place,count
23,8
24,-4
25,-4
END
try 0 draw --csv folder/small-night.trace --from 53 --count 18446744073709551615
prints << END
place,count
53,-2
END
for words in '--from 54' '--count 0' '--from 54 --count 9' '--from 20 --count 0'; do
    try 0 draw --csv folder/small-night.trace $words
    prints << END
place,count
END
    draws none.svg folder/small-night.trace $words
    says none.svg '>no events</text>'
done
says none.svg 'no events from place 20, of 54, 7 snapshots, spacing 8; count 6 before, 6 after'
draws part.svg folder/small-night.trace --from 23 --count 2
says part.svg 'events 23 to 24 of 54'
says part.svg 'count 8 before, -4 after'
says part.svg '>HIP, high preset</text>'
draws rounded.svg folder/small-night.trace --from 23 --count 20
sed -n 's/^<text x="\([0-9]*\)" y="[0-9]*">\(2[0-9]\)<.*/\1 \2/p' rounded.svg > out
prints << END
176 24
272 26
368 28
END
for place in 55 4294967296 18446744073709551615; do
    for words in '' --csv; do
        try 2 draw folder/small-night.trace $words --from "$place" -o never.svg
        says err "small-night.trace: there is no event $place, only events 0 to 53"
    done
done
verdict 'nothing is made' [ ! -e never.svg ]

# pulses INPUT COUNT: it goes on and off so often.
pulses() {
    yes "inputs $1
inputs none" | head -n $((2 * $2))
}

# settings MODE HIP LOP OVF UNF: loaded, and counting.
settings() {
    printf '%s\n' 'device PFN 3' "device MOD $1" "stage HIP $2" "stage LOP $3" "stage OVF $4" "stage UNF $5" \
        'flag SP 0' 'flag SP 1' 'flag CE 1'
}

# night NAME: draws the events of NAME.txt: NAME.svg, NAME.csv.
night() {
    try 0 build "$1.txt" 4096 "$1.trace"
    try 0 draw --csv "$1.trace" -o "$1.csv"
    draws "$1.svg" "$1.trace"
    verdict "$1: the curve has every count" follows "$1.svg" "$1.csv"
}

# No events, one, and counts that never move.
: > empty.txt
night empty
says empty.svg '>no events</text>'
says empty.svg 'no events from place 0, of 0, 1 snapshot, spacing 4096; count 0 before, 0 after'
echo 'ACC 7' > one.txt
night one
says one.svg 'events 0 to 0 of 1, '
says one.svg 'count 0 before, 7 after'
echo blank > still.txt
night still
verdict 'counts that do not move have an axis' [ "$(height -1 still.svg)/$(height 1 still.svg)" = 525/125 ]

# The limits of the numbers.
{ settings 2 2147483647 -2147483648 2147483647 -2147483648; echo 'ACC 2147483647'; pulses 0 1; echo 'ACC -2147483648'
    echo 'inputs 1'; echo 'inputs 0 1'; } > limits.txt
night limits
says limits.svg 'lowest -2147483648, highest 2147483647'
says limits.svg '>3&#160;000&#160;000&#160;000</text>'
says limits.svg '>1 rollover past OVF</text>'
says limits.svg '>1 rollover past UNF</text>'
says limits.svg '>HIP 2147483647</text>'
says limits.svg '>UNF -2147483648</text>'

# Presets and limits far from the counts are told and leave the curve its room. Those that are not active are not there.
{ settings 2 2147483647 -12 2147483647 -2147483648; pulses 0 30; } > far.txt
night far
says far.svg '>HIP 2147483647, above the picture</text>'
says far.svg '>UNF -2147483648, below the picture</text>'
verdict 'LOP is not far' [ -n "$(path LOP far.svg)" ]
verdict 'HIP is' [ -z "$(path HIP far.svg)" ]
verdict 'the axis is that of the counts' [ -n "$(height -20 far.svg)" ]
{ settings 2 2147483647 -20 2147483647 -20; pulses 0 9; echo 'stage HIP 12'; echo load; pulses 0 2; } > moved.txt
night moved
says moved.svg '>HIP, high preset, also 2147483647, above the picture</text>'
verdict 'HIP is a line from its load on' [ "$(path HIP moved.svg | cut -d ' ' -f 1)" = M$((128 + 28 * 960 / 33)) ]
pulses 0 3 > unloaded.txt
night unloaded
verdict 'nothing is loaded' [ "$(grep -c -e HIP -e LOP -e OVF -e UNF unloaded.svg)" -eq 0 ]

# LOP and UNF have no say in modes 0 and 1: gone with the load, and back with another.
{ settings 2 9 -9 9 -9; pulses 0 3; settings 0 9 -9 9 -9; pulses 0 3; settings 2 9 -9 9 -9; } > modes.txt
night modes
verdict 'LOP holds twice' [ "$(path LOP modes.svg | tr -cd M)" = MM ]
verdict 'UNF holds twice' [ "$(path UNF modes.svg | tr -cd M)" = MM ]
verdict 'HIP holds all the time' [ "$(path HIP modes.svg | tr -cd M)" = M ]
settings 1 9 0 9 0 > up.txt
night up
verdict 'only HIP and OVF have a say' [ "$(grep -c -e LOP -e UNF up.svg)" -eq 0 ]

# marked NAME MARKS COUNT WORDS: so many of these marks, and the words in the legend.
marked() {
    verdict "$1: $3 $2" [ "$(path "$2" "$1.svg" | tr -cd m | wc -c)" -eq "$3" ]
    [ "$3" -eq 0 ] || says "$1.svg" ">$4</text>"
}

# Rollovers are marked each time, also while OF and UF are 1; resets also where the counter stands at 0 or does not
# count. A count that comes to 0, and a write of 0, are none.
{ settings 5 4 -2 5 -3; pulses 0 6; pulses 1 1; pulses 0 1; pulses 2 2; echo 'flag CE 0'; pulses 2 1; echo 'ACC 0'
    echo 'flag CE 1'; pulses 0 1; pulses 1 1; } > rolled.txt
night rolled
marked rolled overflows 2 '2 rollovers past OVF'
marked rolled underflows 1 '1 rollover past UNF'
marked rolled returns 0
marked rolled resets 3 '3 resets'
draws late.svg rolled.trace --from 22
marked late overflows 1 '1 rollover past OVF'
marked late underflows 0
draws later.svg rolled.trace --from 24
marked later overflows 0

# Back to 0 at HIP and past OVF in modes 0 and 1, from 0 to 0 with HIP 1; past OVF to UNF 0 in mode 3.
{ settings 0 3 0 10 0; pulses 0 7; echo 'ACC 10'; pulses 0 1; pulses 2 2; settings 0 1 0 1 0; pulses 0 2; } > ups.txt
night ups
marked ups returns 4 '4 returns to 0 at HIP'
marked ups overflows 1 '1 rollover past OVF'
marked ups resets 0
{ settings 1 2 0 2 0; pulses 0 4; pulses 2 1; } > held.txt
night held
marked held returns 2 '2 returns to 0 at HIP'
marked held resets 1 '1 reset'
{ settings 3 2 0 2 0; pulses 0 3; } > zero.txt
night zero
marked zero overflows 1 '1 rollover past OVF'
marked zero resets 0

# samples INPUTS..: a sample with each of these.
samples() {
    printf 'inputs %s\n' "$@"
}

# In mode 7 a pulse of input 2 is no reset, nor is a fall of input 0 with input 1 on, or with 2 off. A fall with 1 off and
# 2 on is one, also where the counter stands at 0, and with CE 0 or a hold.
{ settings 7 90 -90 99 -99; echo 'ACC 5'; pulses 2 3; } > pulsed.txt
night pulsed
marked pulsed resets 0
{ settings 7 90 -90 99 -99; echo 'ACC 5'; pulses 2 2; samples '0 1 2' '1 2' none '0 1' 1 2 '0 2' 2 '0 2' 2; echo 'ACC 5'
    samples '0 2 3' '2 3'; echo 'flag CE 0'; echo 'ACC 5'; samples '0 2' 2 '0 2' 2 '0 2 3' '2 3'; echo 'flag CE 1'
    samples none 0 '0 2' none; } > seven.txt
night seven
verdict 'seven: its counts' [ "$(sed 1,10d seven.csv | cut -d , -f 2 | tr '\n' ' ')" = \
    '5 5 5 5 5 5 5 5 5 5 5 5 0 0 0 5 5 0 0 5 5 0 0 0 0 0 0 0 1 1 0 ' ]
marked seven resets 6 '6 resets'
marked seven overflows 0
marked seven underflows 0

# Gaps, as bands in the frame and bars in their lane.
{ echo 'ACC 3'; yes blank | head -n 3; echo 'ACC 4'; echo blank; } > gaps.txt
night gaps
says gaps.svg '>4 blank events in 2 gaps, shaded</text>'
verdict 'two bands' [ "$(path gaps gaps.svg | tr -cd M)" = MM ]
verdict 'the first is three places wide' [ "$(path gaps gaps.svg | sed 's/v.*//')" = 'M288 107h480' ]
verdict 'two bars' [ "$(path blanks gaps.svg | tr -cd M)" = MM ]

# A full night of blank events with a single high count: it is there, and the file is small.
header 1048576 4096 > spike.trace
truncate -s $((24 + 12 * 1048576 + 68 * 257)) spike.trace
over spike.trace $((24 + 12 * 700001)) 5 1000
over spike.trace $((24 + 12 * 700002)) 5 0
draws spike.svg spike.trace
verdict 'one event in a million is seen' [ "$(path count spike.svg)" = \
    "M110 $(height 0 spike.svg)H768V$(height 1000 spike.svg)V$(height 0 spike.svg)H1088" ]
says spike.svg '>1048574 blank events in 2 gaps, shaded</text>'
says spike.svg 'of up to 1093 events in a column'
verdict 'a quiet night is a small file' [ "$(wc -c < spike.svg)" -lt 4000 ]
rm spike.trace

# A full night of noise, in counts, presets, limits, marks and gaps: the 1024 events of noise, 1024 times.
noise() {
    settings 3 40 -40 50 -50
    awk 'BEGIN {
        for (i = 0; i < 84; i++) {
            print "stage HIP " (20 + i * 7 % 29) "\nstage LOP " (-20 - i * 5 % 29) "\nstage OVF " (50 + i * 3 % 9)
            print "stage UNF " (-50 - i * 11 % 9) "\nflag SP 0\nflag SP 1\ndevice MOD " (i % 2 * 2 + 1)
            print "ACC " (i % 3 == 0 ? 19 + i * 7 % 29 : i % 3 == 1 ? 60 : -60)
            print (i % 2 ? "inputs 0" : "inputs 0 1") "\ninputs none\n" (i % 5 ? "blank" : "inputs 2") "\ninputs none"
        }
    }'
    yes blank | head -n 7
}
noise > noise.txt
try 0 encode noise.txt events
for i in 1 2 3 4 5 6 7 8 9 10; do
    cat events events > more && mv more events
done
try 0 build events 4096 noise.trace
draws noise.svg noise.trace
try 0 draw --csv noise.trace -o noise.csv
verdict 'the night is full' [ "$(wc -l < noise.csv)" -eq 1048577 ]
verdict 'noise: the curve has the lowest and highest count of every column' follows noise.svg noise.csv
for marks in overflows underflows returns resets; do
    verdict "noise: $marks in nearly every column" [ "$(path "$marks" noise.svg | tr -cd m | wc -c)" -gt 800 ]
done
verdict "noise: $(wc -c < noise.svg) bytes" [ "$(wc -c < noise.svg)" -lt 160000 ]
rm noise.trace noise.csv events

# A name is text, whatever it is: XML's own marks, what is no character, and more than the title has room for.
long=$(printf '%0200d' 0).trace
for name in 'a&b<c>"d"'"'.trace" "$(printf 'a\001b\377c\303.trace')" \
    "$(printf '\355\240\200 \300\200 \357\277\277 \303\251.trace')" "$long"; do
    cp night.trace "$name"
    draws named.svg "$name"
done
says named.svg "<title>$long: "
says named.svg ">$(printf '%072d' 0)...</text>"
cp night.trace 'a&b<c>.trace'
draws named.svg 'a&b<c>.trace'
says named.svg '>a&amp;b&lt;c&gt;.trace</text>'
cp night.trace "$(printf 'a\001b\377c\303\251.trace')"
draws named.svg "$(printf 'a\001b\377c\303\251.trace')"
says named.svg "$(printf '>a?b?c\303\251.trace</text>')"

# The stored table is not looked at. An illegal event is refused at its place in the image, up to the run's end.
cp night.trace damaged.trace
over damaged.trace $((24 + 12 * 54 + 60)) -1
try 0 draw damaged.trace --csv
same out small.csv
over damaged.trace $((24 + 12 * 30)) 10
for words in '' '--csv' '--from 31' '--from 20' '--from 30 --count 1' '--count 31' '--from 54'; do
    keep damaged.trace refuse 5 30 draw damaged.trace $words
    says err 'damaged.trace: refused 5 at 30: this event is not legal'
    keep small.svg refuse 5 30 draw -o small.svg damaged.trace $words
done
try 0 draw damaged.trace --count 30
try 0 draw damaged.trace --csv --from 10 --count 20
refuse 5 30 draw -o never.svg damaged.trace
verdict 'a refusal makes no file' [ ! -e never.svg ]

# OUT is another file than the image, and not standard output.
ln -s night.trace link.trace
for out in night.trace ./night.trace link.trace; do
    keep night.trace try 2 draw night.trace -o "$out"
    says err "$out: is the file that is read"
done
try 2 draw night.trace -o -
says err 'takes the name of a file, not standard output'
for out in folder missing/night.svg /dev/null ''; do
    try 2 draw night.trace -o "$out"
    says err "hsc: $out: "
    verdict "-o '$out': nothing on standard output" [ ! -s out ]
done

# fails CALL:N:ERRNO TEXT: drawing fails with this text, prints nothing and makes no file.
fails() {
    for words in '' --csv; do
        faulty "$1" try 2 draw $words night.trace -o never.svg
        says err "$2"
        verdict "$1: nothing on standard output" [ ! -s out ]
        verdict "$1: no file" [ -z "$(find . -name never.svg -o -name '.hsc-*')" ]
    done
}

fails malloc:1:ENOMEM 'night.trace: no memory for the image: Cannot allocate memory'
fails malloc:3:ENOMEM 'night.trace: no memory for the counts: Cannot allocate memory'
fails open_memstream:1:ENOMEM 'night.trace: no memory for the drawing: Cannot allocate memory'
fails fclose:1:ENOMEM 'night.trace: no memory for the drawing: Cannot allocate memory'
fails write:1:ENOSPC 'never.svg: not written, its temporary file cannot be written: No space left on device'
faulty malloc:4:ENOMEM try 2 draw night.trace
says err 'night.trace: no memory for the picture: Cannot allocate memory'
verdict 'no picture: nothing on standard output' [ ! -s out ]
