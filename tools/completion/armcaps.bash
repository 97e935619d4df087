# Completion of armcaps and its tools for bash. Written by tools/manual from what --help prints. Do not edit.
_armcaps() {
    local word=${COMP_WORDS[COMP_CWORD]} before=${COMP_WORDS[COMP_CWORD - 1]} options=
    case ${COMP_WORDS[0]##*/} in
    armcaps-dump2text) options='--hex --dec --partial --user-space --boot --late --absent --cmdline --format --help --version' ;;
    armcaps-explain) options='--what --all --no-hidden --core --help --version' ;;
    armcaps-cmdline-lint) options='--linux --file --text --help --version' ;;
    armcaps-kernel2text) options='--image --nm --caps --vmlinux --running --on --off --conduit --callback --padded --rules --help --version' ;;
    armcaps-patch-diff) options='--nm --all --site --help --version' ;;
    armcaps-page) options='--page --help --version' ;;
    armcaps-fleet) options='--list --judged --all --text --strict --null --jobs --judge --help --version' ;;
    *)
        [ "$COMP_CWORD" = 1 ] && COMPREPLY=($(compgen -W 'report patch mrs demo trace elf jump pool audit' -- "$word"))
        return ;;
    esac
    case $before in
    --format) COMPREPLY=($(compgen -W '1 2' -- "$word")); return ;;
    --linux) COMPREPLY=($(compgen -W '6.1 6.6 6.12' -- "$word")); return ;;
    --conduit) COMPREPLY=($(compgen -W 'hvc smc none' -- "$word")); return ;;
    --absent | --boot | --callback | --cmdline | --core | --jobs | --late | --off | --on | --site | --what) return ;;
    esac
    case $word in
    -*) COMPREPLY=($(compgen -W "$options" -- "$word")) ;;
    *) compopt -o default; COMPREPLY=() ;;
    esac
}
complete -F _armcaps armcaps armcaps-dump2text armcaps-explain armcaps-cmdline-lint armcaps-kernel2text armcaps-patch-diff armcaps-page armcaps-fleet
