#!/bin/sh
# Makes the sample images. Each is named for what it shows: an image that has no code and so can't be run,
# one with a malformed block, which is refused, a story that says 42, and an image with a block of every kind.
# The sources, *.t3s, are for `t3 asm`, which made counter.t3, asks.t3, cave.t3 and saves.t3.
set -eu
cd "$(dirname "$0")"

# The signature, the version, 32 reserved bytes 0 and a time of 24 spaces.
head_bytes() {
    printf 'T3-image\r\n\032\001\000'
    head -c 32 /dev/zero
    printf '%24s' ''
}

end_bytes() {
    printf 'EOF \000\000\000\000\000\000'
}

{
    head_bytes
    # A block of an unknown name, which is kept as bytes.
    printf 'ZZZZ\003\000\000\000\000\000\001\002\003'
    end_bytes
} > no_code.t3

{
    head_bytes
    # A list that says that it has two names, and has one.
    printf 'FNSD\021\000\000\000\001\000\002\000\016tads-io/030007'
    end_bytes
} > malformed.t3

{
    head_bytes
    # The entry method stands at address 0 of the code; headers and exception entries have 10 bytes.
    printf 'ENTP\020\000\000\000\001\000'
    printf '\000\000\000\000\012\000\012\000\000\000\000\000\000\000\000\000'
    # The code has one page, of at most 64 bytes.
    printf 'CPDF\012\000\000\000\001\000\001\000\001\000\000\000\100\000\000\000'
    printf 'FNSD\021\000\000\000\001\000\001\000\016tads-io/030007'
    # The page: a method header, then the instructions pushint8 42, builtin_a 1 0, retnil.
    printf 'CPPG\027\000\000\000\001\000\001\000\000\000\000\000\000'
    printf '\000\000\000\000\002\000\000\000\000\000'
    printf '\003\052\261\001\000\121'
    end_bytes
} > answer.t3

{
    head_bytes
    printf 'ENTP\020\000\000\000\001\000'
    printf '\000\000\000\000\012\000\012\000\000\000\000\000\000\000\000\000'
    # Code and constants, each with one page of at most 64 bytes.
    printf 'CPDF\012\000\000\000\001\000\001\000\001\000\000\000\100\000\000\000'
    printf 'CPDF\012\000\000\000\001\000\002\000\001\000\000\000\100\000\000\000'
    # One metaclass with one property, number 2, of two bytes.
    printf 'MCLD\035\000\000\000\001\000\001\000'
    printf '\033\000\022tads-object/030005\001\000\002\000\002\000'
    printf 'FNSD\021\000\000\000\001\000\001\000\016tads-io/030007'
    # Object 7, of that metaclass: no superclass, no property, no flags.
    printf 'OBJS\022\000\000\000\001\000\001\000\000\000\000\000'
    printf '\007\000\000\000\006\000\000\000\000\000\000\000'
    # The name `errno_`, of property 2.
    printf 'SYMD\016\000\000\000\001\000\001\000\006\002\000\000\000\006errno_'
    # The code: a method that returns at once.
    printf 'CPPG\022\000\000\000\001\000\001\000\000\000\000\000\000'
    printf '\000\000\000\000\001\000\000\000\000\000\121'
    # The constants: the text `hi` behind its length, under the mask FF.
    printf 'CPPG\013\000\000\000\001\000\002\000\000\000\000\000\377\375\377\227\226'
    # Kept unread: a resource, and a block of a name without meaning.
    printf 'MRES\003\000\000\000\001\000\001\002\003'
    printf 'ZZZZ\003\000\000\000\000\000\001\002\003'
    end_bytes
} > kinds.t3
