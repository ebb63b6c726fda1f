# Completion of vault for bash.
_vault() {
    local word=${COMP_WORDS[COMP_CWORD]} before=${COMP_WORDS[COMP_CWORD-1]} command= image= i
    local commands="label info ls tree cat get stat probe check survey compare make sample help"
    local matching="--as-written --unambiguous --as-original --raw --icb"
    for ((i = 1; i < COMP_CWORD; i++)); do
        case ${COMP_WORDS[i]} in
            -o | --sums | --icb | --levels | --limit | --wait | --from | --bytes) ((i++)) ;;
            -*) ;;
            *) if [ -z "$command" ]; then command=${COMP_WORDS[i]}; elif [ -z "$image" ]; then image=${COMP_WORDS[i]}; fi ;;
        esac
    done
    case $before in
        --sums) COMPREPLY=($(compgen -f -- "$word")); return ;;
        -o) COMPREPLY=($(compgen -d -- "$word")); return ;;
        --icb | --levels | --limit | --wait | --from | --bytes) return ;;
    esac
    if [[ $word == -* ]]; then
        local options="--help --sectors --checked --highest --maps --copy --drive"
        case $command in
            ls) options+=" -R -i -l -0 --json --levels --limit --no-limit $matching" ;;
            tree) options+=" --json --levels --limit --no-limit $matching" ;;
            cat) options+=" --from --bytes --wait $matching" ;;
            get) options+=" -o -r --portable --sums --limit --no-limit --from --bytes --wait $matching" ;;
            stat) options+=" --json $matching" ;;
            info) options+=" --json" ;;
            make | sample) options="--help --force" ;;
            check | compare) options+=" --json --limit --no-limit" ;;
            survey) options+=" --json --limit --no-limit --rows --total" ;;
            "") options+=" --version" ;;
        esac
        COMPREPLY=($(compgen -W "$options" -- "$word"))
    elif [ -z "$command" ] || [ "$command" = help ]; then
        COMPREPLY=($(compgen -W "$commands" -- "$word"))
    elif [ -z "$image" ] || [ "$command" = make ] || [ "$command" = survey ] || [ "$command" = compare ]; then
        compopt -o filenames 2>/dev/null
        COMPREPLY=($(compgen -f -- "$word"))
    else
        # The entries on the disc under the folder typed so far, if their names need no quoting.
        local folder= IFS=$'\n'
        [[ $word == */* ]] && folder=${word%/*}/
        compopt -o nospace 2>/dev/null
        COMPREPLY=($(compgen -W "$(vault ls "$image" "$folder" 2>/dev/null | grep -v '[\\[:space:]$`"]' | sed "s|^|$folder|")" -- "$word"))
    fi
}
complete -F _vault vault
