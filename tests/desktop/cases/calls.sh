# The header, in C and in C++, and the calls through it.

# build_calls COMPILER..: compiles and links tests/desktop/calls.c with the archive.
build_calls() {
    "$@" $WARNINGS $SANITIZE -I"$root/include" -o calls "$root/tests/desktop/calls.c" -x none "$archive" $LDLIBS 2> err
}

verdict 'the header and the calls build as C11' build_calls $CC -std=c11
verdict 'the calls through C' ./calls two-events.trace
if command -v "${CXX%% *}" > /dev/null; then
    verdict 'the header and the calls build as C++' build_calls $CXX -std=c++11 -x c++
    verdict 'the calls through C++' ./calls two-events.trace
else
    skip 'no C++ compiler'
fi

# A caller lends as many numbers as the prototype of hsc_mend names. One that lends two, as those before 0.9.0 did, does not
# compile cleanly where the compiler looks at that length; gcc does from 11 on.
cat > lends.c << END
#include "hsc.h"
uint64_t ran(uint8_t *image, size_t image_len, const uint8_t *patch, size_t patch_len);
uint64_t ran(uint8_t *image, size_t image_len, const uint8_t *patch, size_t patch_len)
{
    uint32_t span[NUMBERS];

    return hsc_mend(image, image_len, 0, patch, patch_len, span) == HSC_DONE ? span[NUMBERS - 1] : 0;
}
END

# lends NUMBERS: compiles such a caller.
lends() {
    $CC -std=c11 $WARNINGS -I"$root/include" -DNUMBERS="$1" -c -o lends.o lends.c 2> err
}

verdict 'a caller that lends three numbers compiles' lends 3
if [ "$(echo __GNUC__ __clang__ | $CC -E -P - | awk '{ print ($1 >= 11 && $2 == "__clang__") }')" -eq 1 ]; then
    verdict 'one that lends two does not' eval '! lends 2'
    says err 'hsc_mend'
    says err 'stringop-overflow'
else
    skip 'the compiler does not look at the length of a lent array'
fi
: > err

verdict 'the archive has the thirteen calls' [ "$(nm -g --defined-only "$archive" 2> /dev/null |
    grep -c -E ' T hsc_(version|event_check|step|draw|read|replay|mend|compare|rest|first_difference|reader_(new|feed|end))$')" -eq 13 ]

# The examples are what their script writes.
cp "$root"/examples/make "$root"/examples/image.sh .
cp two-events.trace trace.kept
cp one-event.patch patch.kept
rm two-events.trace one-event.patch
./make
same two-events.trace trace.kept
same one-event.patch patch.kept
verdict 'the example has 252 bytes' [ "$(wc -c < two-events.trace)" -eq 252 ]
