# Completion of mic for bash: source this file, or put it into /etc/bash_completion.d.
_mic() {
    local word=${COMP_WORDS[COMP_CWORD]} before=${COMP_WORDS[COMP_CWORD-1]} command=${COMP_WORDS[1]}
    if [ "$COMP_CWORD" -eq 1 ]; then
        COMPREPLY=($(compgen -W "assemble list verify run trace profile debug reference micro print-micro soak cache rewind compile tiny" -- "$word"))
        return
    fi
    # Where bash divides words at =, as it does unless COMP_WORDBREAKS was changed, --machine=mic1 is three words.
    if [ "$word" = = ]; then
        word=
    elif [ "$before" = = ]; then
        before=${COMP_WORDS[COMP_CWORD-2]}
    fi
    local option=$before front=
    case $word in
    --*=*) option=${word%%=*} front=${word%%=*}= word=${word#*=} ;;
    esac
    local machines="mic1 mic2"
    [ "$command" = run ] && machines="mic1 mic2 mic3"
    case $option in
    --machine) COMPREPLY=($(compgen -P "$front" -W "$machines" -- "$word")); return ;;
    --map) COMPREPLY=($(compgen -P "$front" -W "standard large" -- "$word")); return ;;
    --micro | --input) COMPREPLY=($(compgen -P "$front" -f -- "$word")); return ;;
    --bound | --depth) COMPREPLY=(); return ;;
    esac
    local options
    case $command in
    list | verify) options="--map" ;;
    run | profile) options="--machine --bound --micro --map" ;;
    trace) options="--machine --bound --micro --buses --map" ;;
    debug) options="--machine --bound --micro --input --map" ;;
    reference) options="--machine --bound --map" ;;
    micro | print-micro | soak) options="--machine" ;;
    cache) options="--bound --map" ;;
    rewind) options="--machine --input --depth --map" ;;
    tiny) options="--machine --bound" ;;
    esac
    case $word in
    -*) COMPREPLY=($(compgen -W "$options" -- "$word")) ;;
    *) [ "$command" = soak ] || COMPREPLY=($(compgen -f -- "$word")) ;;
    esac
}
complete -o filenames -F _mic mic
