# How a script in sh answers `--help`, and words that are in none of its forms: both come from the
# script's head, in which its forms stand in lines that are four deeper. A script takes it in before
# it goes to another folder.

script=$(cd "$(dirname "$0")" && pwd)/${0##*/} || exit 1

# The lines of the script's head.
script_head() {
    sed -n '2,/^[^#]/s/^# \{0,1\}//p' "$script"
}

# Where the first word is `--help`, shows the head and ends with 0.
answers_help() {
    case ${1-} in
    -h | --help)
        script_head
        exit 0
        ;;
    esac
}

# Shows the forms on standard error, and ends with 2.
refuses_words() {
    {
        echo "usage:"
        script_head | grep '^    '
    } >&2
    exit 2
}

# The answers of a script that has no words.
takes_no_words() {
    answers_help "$@"
    [ "$#" -eq 0 ] || refuses_words
}
