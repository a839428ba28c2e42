# The header's version beside the archive's.

number=$(sed -n 's/^#define HSC_VERSION_NUMBER \(.*\)/\1/p' "$root/include/hsc.h")
verdict "the number $number is $version" [ "$number" -eq \
    "$(echo "$version" | awk -F . '{ print $1 * 10000 + $2 * 100 + $3 }')" ]

# An archive of another version.
cat > other.c << END
#include <stdint.h>
uint32_t __wrap_hsc_version(void);
uint32_t __wrap_hsc_version(void) { return 203; }
END
verdict 'the program builds with another version' $CC -std=c11 -D_XOPEN_SOURCE=700 -I"$root/include" \
    -Wl,--wrap=hsc_version -o other "$root"/desktop/*.c other.c "$archive" $LDLIBS
status=0
./other check two-events.trace > out 2> err || status=$?
verdict "an archive of another version: exit status $status" [ "$status" -eq 2 ]
says err "hsc: built for library version $number, but linked with 203"
