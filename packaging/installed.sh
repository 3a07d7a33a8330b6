#!/bin/sh
# One reply on standard output for each line of standard input: see timeforms(1).
version=@VERSION@
program=@LIBDIR@/timeforms/timeforms
more='More in the manual page: man timeforms'

# Ends where the processor lacks instructions that the program is made of. Where no list of them can be read the program starts.
prepare() {
    has=
    while read -r word list; do
        [ "$word" != flags ] || { has=" $list "; break; }
    done 2>/dev/null </proc/cpuinfo
    [ -n "$has" ] || return 0
    for flag in cx16 lahf_lm popcnt sse4_1 sse4_2 ssse3; do
        case $has in
            *" $flag "*) ;;
            *) echo "timeforms: this processor lacks '$flag', and the program needs x86-64-v2" >&2; exit 126 ;;
        esac
    done
}
