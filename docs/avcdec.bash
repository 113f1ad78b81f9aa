# Completion of avcdec's command line for bash: install.sh puts it where bash-completion looks for it; `. docs/avcdec.bash` does without.

# The words that may stand here, of which some begin like the last word.
_avcdec_words() {
    local IFS=$' \t\n'
    # shellcheck disable=SC2207
    COMPREPLY=($(compgen -W "$1" -- "${COMP_WORDS[COMP_CWORD]}"))
}

# The files whose names begin like the last word.
_avcdec_files() {
    local IFS=$'\n'
    # shellcheck disable=SC2207
    COMPREPLY=($(compgen -f -- "${COMP_WORDS[COMP_CWORD]}"))
    compopt -o filenames 2>/dev/null
}

_avcdec_options() {
    case $1 in
    decode) echo '--early --format -f --verify --from --skip -s --limit -l --frametimes --progress --quiet -q --strict --explain --output -o --help -h' ;;
    cut | picture) echo '--output -o --help -h' ;;
    compare) echo '--max-diff --psnr --explain --help -h' ;;
    macroblocks) echo '--picture --coefficients --json --help -h' ;;
    units | headers | pieces | info) echo '--json --help -h' ;;
    esac
}

_avcdec() {
    local commands='decode units headers pieces macroblocks info picture cut compare help'
    COMPREPLY=()
    if [ "$COMP_CWORD" -eq 1 ]; then
        _avcdec_words "$commands --help -h --version -V"
        return
    fi
    case ${COMP_WORDS[COMP_CWORD - 1]} in
    help) _avcdec_words "$commands" ;;
    --format | -f) _avcdec_words 'i420 y4m png null md5 framemd5' ;;
    --verify | --from | --skip | -s | --limit | -l | --picture | --max-diff) ;;
    -o | --output | --frametimes) _avcdec_files ;;
    *)
        case ${COMP_WORDS[COMP_CWORD]} in
        -*) _avcdec_words "$(_avcdec_options "${COMP_WORDS[1]}")" ;;
        *) _avcdec_files ;;
        esac
        ;;
    esac
}

complete -F _avcdec avcdec
