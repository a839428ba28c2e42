# hsc show.

keep two-events.trace try 0 show two-events.trace 1
prints << END
snapshot 1 of 3, after 1 of 2 events
              staged      active
PFN                0           0
MOD                0           0
HIP       2147483647           0
LOP      -2147483648           0
OVF       2147483647           0
UNF      -2147483648           0
OMB             0000        0000
HPO             0000        0000
LPO             0000        0000
mode     none, nothing is loaded
ACC      7
outputs  0000
ER       0, no error
flags    00000780 LPM HPM UFM OFM
inputs   none
running  none
waiting  none
shown    none
END

# A loaded counter in mode 4 with FE, UIE and CE, that runs a high preset while an overflow and an underflow wait:
# HIP = OVF = 2, LOP = UNF = -1; up from 1 to 2, up past 2 to -1, down past -1 to 2.
{
    header 18 18
    event 3 1 3
    event 3 2 4
    event 3 3 15
    event 2 1 2
    event 2 2 -1
    event 2 3 2
    event 2 4 -1
    event 2 5 65535
    event 4 6 1
    event 4 0 1
    event 4 2 1
    event 4 5 1
    event 5 0 1
    event 1 0 1
    event 1 0 0
    event 1 0 1
    event 1 0 0
    event 1 0 2
    zeros $((2 * 68))
} > loaded.trace
try 0 replay loaded.trace
try 0 show loaded.trace 1
prints << END
snapshot 1 of 2, after 18 of 18 events
              staged      active
PFN                3           3
MOD                4           4
HIP                2           2
LOP               -1          -1
OVF                2           2
UNF               -1          -1
OMB             000f        000f
HPO             ffff        ffff
LPO             0000        0000
mode     4, up by one input, down by the other
ACC      2
outputs  000f
ER       0, no error
flags    000b17e5 UIE FE CE SP LPM HPM UFM OFM HPI UF OF loaded
inputs   1
running  high preset
waiting  overflow, underflow
shown    UIX UIP CU CD HPR
END

# A load that broke a rule.
{ header 1 1; event 4 6 1; zeros $((2 * 68)); } > rejected.trace
try 0 replay rejected.trace
try 0 show rejected.trace 1
says out 'ER       1, PFN is not 3 to 255'
says out 'ED SP'

# A snapshot that is not well formed is refused at its own index, the others are shown; so they are in an image with an
# illegal event.
cp two-events.trace damaged.trace
over damaged.trace $((48 + 2 * 68 + 60)) -1
over damaged.trace 24 10
try 0 show damaged.trace 1
keep damaged.trace refuse 6 2 show damaged.trace 2

for index in 3 4294967296 18446744073709551615; do
    try 2 show two-events.trace "$index"
    says err "two-events.trace: there is no snapshot $index, only snapshots 0 to 2"
done
