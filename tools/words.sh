# shellcheck shell=bash
# Sourced by the commands that are shell scripts: the words on a command's line are looked at before anything is done. The comment at
# the top of a command is its usage.

usage() { sed -n '2,/^[^#]/s/^# \{0,1\}//p' "$0"; }

# wrong_use REASON...: tells it, with the usage, and ends with 2.
wrong_use() {
    { printf '%s: %s\n' "${0##*/}" "$*" && usage; } >&2 || true
    exit 2
}

# only KNOWN WORD...: ends with 2 unless at most one word stands there, and KNOWN has it. --help gives the usage.
only() {
    local known=$1
    shift
    case $# in
    0) return ;;
    1)
        case $1 in
        --help | -h)
            usage || exit 2
            exit 0
            ;;
        esac
        [[ -z $1 || " $known " != *" $1 "* ]] || return 0
        ;;
    esac
    wrong_use "not understood: $*"
}
