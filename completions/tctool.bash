# Completion of tctool for bash, made by tools/completions.
_tctool() {
    local word=${COMP_WORDS[COMP_CWORD]} before=${COMP_WORDS[COMP_CWORD - 1]} words
    COMPREPLY=()
    if [ "$COMP_CWORD" -eq 1 ]; then
        words='farm map tc tm clcw check packets encode sim ground spacecraft help --help --version -h -V'
    else
        case $before in
            --width | --vr | --scid | --vcid | --map | --length | --apid) return ;;
        esac
        case ${COMP_WORDS[1]} in
            farm) words='--width --vr --scid --vcid --check --resync --count --help -h' ;;
            map) words='--width --vr --scid --vcid --map --check --resync --blocking --count --help -h' ;;
            tc) words='--scid --vcid --check --resync --count --help -h' ;;
            tm) words='--length --scid --vcid --report --count --help -h' ;;
            clcw) words='--vcid --count --help -h' ;;
            check) words='--scid --vcid --resync --count --help -h' ;;
            packets) words='--apid --count --help -h' ;;
            encode) words='--check --skip-invalid --help -h' ;;
            sim | ground | spacecraft) words='--help -h' ;;
            help) words='farm map tc tm clcw check packets encode sim ground spacecraft' ;;
        esac
    fi
    if [ "$COMP_CWORD" -eq 1 ] || [ "${COMP_WORDS[1]}" = help ] || [ "${word#-}" != "$word" ]; then
        mapfile -t COMPREPLY < <(compgen -W "$words" -- "$word")
    else
        mapfile -t COMPREPLY < <(compgen -f -- "$word")
    fi
}
complete -o filenames -F _tctool tctool
