# Completion of mic-check for bash: source this file, or put it into /etc/bash_completion.d.
_mic_check() {
    local word=${COMP_WORDS[COMP_CWORD]} before=${COMP_WORDS[COMP_CWORD-1]}
    # Where bash divides words at =, as it does unless COMP_WORDBREAKS was changed, --machine=mic1 is three words.
    if [ "$word" = = ]; then
        word=
    elif [ "$before" = = ]; then
        before=${COMP_WORDS[COMP_CWORD-2]}
    fi
    case $before:$word in
    --machine:*) COMPREPLY=($(compgen -W "mic1" -- "$word")) ;;
    *:--machine=*) COMPREPLY=($(compgen -P "--machine=" -W "mic1" -- "${word#*=}")) ;;
    *:-*) COMPREPLY=($(compgen -W "--machine" -- "$word")) ;;
    *) COMPREPLY=($(compgen -f -- "$word")) ;;
    esac
}
complete -o filenames -F _mic_check mic-check
