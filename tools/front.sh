# The front of the shell programs: answers --help, and refuses what a program does not take. A program reads
# this file, and calls `front USAGE LEAST MOST "$@"` before it does anything. USAGE begins with the program's
# path and contains its options. LEAST and MOST are numbers of arguments, which include options.
front() {
    front_usage=$1 front_least=$2 front_most=$3
    shift 3
    for front_word; do
        case $front_word in
        -h | --help) front_help ;;
        -*)
            case " $front_usage " in
            *[\ \[]"$front_word"[\ \]]*) ;;
            *) refuse "there is no option $front_word" ;;
            esac
            ;;
        esac
    done
    if [ "$#" -lt "$front_least" ] || [ "$#" -gt "$front_most" ]; then
        refuse
    fi
}

# Prints the usage, and the comment at the head of the program. The program is found by its path in the top
# folder, or if it stays in the caller's folder, by the name that it was called by.
front_help() {
    printf 'usage: %s\n\n' "$front_usage"
    front_file=${front_usage%% *}
    [ -f "$front_file" ] || front_file=$0
    sed -n -e 1d -e '/^#/!q' -e 's/^# \{0,1\}//p' "$front_file"
    exit 0
}

# Ends a program that does not take its arguments, with the reason, or by default with its usage.
refuse() {
    echo "${front_usage%% *}: ${1-usage: $front_usage}" >&2
    exit 2
}
