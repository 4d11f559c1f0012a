#!/bin/sh
# Installed as bin/regchain: runs the build that this machine's processor takes, if ./build --cpu built one for x86-64-v3
# too, with large pages for its memory. It starts no other process for that, so a request to a new program isn't kept
# waiting.
here=$0
[ ! -L "$here" ] || here=$(readlink -f "$here")
folder=${here%/*}/../lib/wakotehu
flags=''
while read -r name rest; do
    if [ "$name" = flags ]; then
        flags=" $rest "
        break
    fi
done </proc/cpuinfo
v3=glibc-hwcaps/x86-64-v3/
# As ffi/python/wakotehu/processor.py has them.
for flag in pni ssse3 sse4_1 sse4_2 popcnt cx16 lahf_lm avx avx2 bmi1 bmi2 f16c fma abm movbe xsave; do
    case $flags in
    *" $flag "*) ;;
    *) v3='' && break ;;
    esac
done
[ -x "$folder/${v3}regchain" ] || v3=''
# As ffi/python/wakotehu/processor.py has it.
export GLIBC_TUNABLES="${GLIBC_TUNABLES-glibc.malloc.hugetlb=1}"
exec "$folder/${v3}regchain" "$@"
