# Instructions of the library's calls, by callgrind. Sourced.

# Calls in the shorter and the longer counted run; what lies between is the cost of the calls alone. Both are
# multiples of the 16 strips that are taken in turn.
short=16
long=176

# Instructions of one run. The counter takes each byte that one repeated instruction stores for an instruction of its own, so
# the C library is told to clear and copy without those.
plain=glibc.cpu.x86_rep_stosb_threshold=1048576:glibc.cpu.x86_rep_movsb_threshold=1048576
instructions() {
    GLIBC_TUNABLES=$plain valgrind --tool=callgrind --callgrind-out-file=/dev/null "$1" --count "${@:2}" 2>&1 | awk '/Collected/ { print $4 }'
}

# Instructions a call.
each() {
    local less more
    less=$(instructions "$@" $short)
    more=$(instructions "$@" $long)
    echo $(((more - less) / (long - short)))
}
