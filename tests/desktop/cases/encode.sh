# hsc encode, and the text of events, hsc-events(5).

# Comments, empty lines, the marks of spreadsheets, capitals or not, numbers in either notation.
printf '\357\273\277"# a night, as counted"\r\n\r\n"stage",HIP,"400",,\r\nSTAGE;lop;-1\r\n\tOutputs 0xFFFF # all\r\n  acc +0012\n  ;,\ndone' \
    > night.txt
{ event 2 1 400; event 2 2 -1; event 9 0 65535; event 5 0 12; event 7 0 0; } > wanted.patch
keep night.txt try 0 encode night.txt night.patch
prints << END
5 events
written to night.patch
END
same night.patch wanted.patch

# Places and stamps. The place of the first event is told.
printf '12  inputs 0 2  stamp 4294967295\nblank\n14 flag CE 1 stamp 0x10\n' > placed.txt
{ event 1 0 5 4294967295; event 0 0 0; event 4 5 1 16; } > wanted.patch
try 0 encode placed.txt placed.patch
prints << END
3 events from place 12
written to placed.patch
END
same placed.patch wanted.patch

# No event is a patch too.
printf '# nothing\n' > nothing.txt
try 0 encode nothing.txt nothing.patch
verdict 'no event, no byte' [ -f nothing.patch -a ! -s nothing.patch ]

# From standard input, over a file that is there.
printf 'ACC 9\n' > acc.txt
printf 'old' > acc.patch
status=0
"$PROGRAM" encode - acc.patch < acc.txt > out 2> err || status=$?
verdict "from standard input: exit status $status" [ "$status" -eq 0 ]
same acc.patch one-event.patch

# What events prints is what encode reads.
try 0 events --stamps two-events.trace
cp out both.txt
try 0 encode both.txt both.patch
head -c 48 two-events.trace | tail -c 24 > wanted.patch
same both.patch wanted.patch

# refuse_line TEXT FOUND EXPECTED: the second line of a text is no event, and nothing is written.
refuse_line() {
    printf 'blank\n%s\nblank\n' "$1" > refused.txt
    rm -f refused.patch
    try 1 encode refused.txt refused.patch
    says err "refused.txt: line 2: found $2, expected $3"
    verdict "'$1' writes nothing" [ ! -e refused.patch -a ! -s out ]
}

anything='a number from -2147483648 to 2147483647'
refuse_line stag "'stag'" 'blank, inputs, stage, device, flag, ACC, load, done, run, outputs'
refuse_line 7 nothing 'blank, inputs'
refuse_line 'stage HIPP 1' "'HIPP'" 'HIP, LOP, OVF, UNF, HPO, LPO'
refuse_line stage nothing 'HIP, LOP, OVF, UNF, HPO, LPO'
refuse_line 'device HIP 1' "'HIP'" 'PFN, MOD, OMB, AS'
refuse_line 'flag ED 0' "'ED'" 'UIE, UIL, FE, CE, SP, LPM, HPM, UFM, OFM, LPI, HPI, UFI, OFI, UF, OF, MD'
refuse_line 'flag CE 2' "'2'" '0 or 1'
refuse_line 'flag UF 1' "'1'" '0, nothing else is written to this flag'
refuse_line 'stage HIP' nothing "$anything"
refuse_line 'stage HIP 1,000' "'000'" 'stamp, or nothing more'
refuse_line 'stage HIP 2147483648' "'2147483648'" "$anything"
refuse_line 'stage HIP 99999999999999999999' "'99999999999999999999'" "$anything"
refuse_line 'stage HIP -' "'-'" "$anything"
refuse_line 'stage HIP 0x' "'0x'" "$anything"
refuse_line 'stage HIP 1.5' "'1.5'" "$anything"
refuse_line 'stage HPO 65536' "'65536'" 'a number from 0 to 65535, 0xffff in hexadecimal'
refuse_line 'device PFN -32769' "'-32769'" 'a number from -32768 to 32767'
refuse_line 'outputs -1' "'-1'" 'a number from 0 to 65535'
refuse_line inputs nothing 'the inputs that are on, of 0 to 3, each once, or none'
refuse_line 'inputs 4' "'4'" 'the inputs that are on'
refuse_line 'inputs 0 0' "'0'" 'the inputs that are on'
refuse_line 'inputs none 1' "'1'" 'stamp, or nothing more'
refuse_line 'blank 0' "'0'" 'stamp, or nothing more'
refuse_line 'ACC 1 stamp' nothing 'a stamp from 0 to 4294967295'
refuse_line 'ACC 1 stamp 4294967296' "'4294967296'" 'a stamp from 0 to 4294967295'
refuse_line 'ACC 1 stamp 1 2' "'2'" 'nothing more'
refuse_line "$(printf 'a\033b%060d' 1)" "'a?b0000000000000000000000000000000000000'" 'blank'

# A place that does not follow.
printf '5 blank\n\n7 blank\n' > gap.txt
try 1 encode gap.txt gap.patch
says err "gap.txt: line 3: found '7', expected place 6, or none"
verdict 'a place that does not follow writes nothing' [ ! -e gap.patch ]

# A zero byte is a part of a word that is none.
printf 'bl\000ank\n' > zero.txt
try 1 encode zero.txt zero.patch
says err "line 1: found 'bl?ank'"

# One event more than any image has.
yes blank | head -n 1048576 > all.txt
try 0 encode all.txt all.patch
verdict 'the most events' [ "$(wc -c < all.patch)" -eq $((12 * 1048576)) ]
echo blank >> all.txt
keep all.patch try 1 encode all.txt all.patch
says err "all.txt: line 1048577: found 'blank', expected no more events"
truncate -s $((256 * 1048576 + 1)) huge.txt
try 2 encode huge.txt huge.patch
says err 'huge.txt: the text is longer than any that an image needs'
rm all.txt all.patch huge.txt

# Where OUT may not be.
keep night.txt try 2 encode night.txt night.txt
says err 'night.txt: is the file that is read'
ln night.txt link.txt
keep night.txt try 2 encode night.txt link.txt
try 2 encode night.txt -
says err 'OUT: takes the name of a file, not standard output'
verdict 'no file is called -' [ ! -e ./- ]
mkdir folder
try 2 encode night.txt folder
try 2 encode night.txt missing/out.patch
try 2 encode missing.txt out.patch
try 2 encode folder out.patch
verdict 'nothing is written' [ ! -e out.patch ]
