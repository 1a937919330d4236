# Completion of altqplay in bash 4 and later: `source altqplay.bash`. It needs no other package.
#
# It completes the commands, the options of each that are not given yet, names of files, and for --interface the
# names in the lines `interface NAME ...` of the file that --config names.

# The names of interfaces in a configuration, one on each line.
_altqplay_interfaces() {
    local file=${1//[\"\'\\]/} word name rest
    file=${file/#\~\//$HOME/}
    [[ -f $file && -r $file ]] || return 0
    while read -r word name rest || [[ $word ]]; do
        [[ $word == interface && $name =~ ^[A-Za-z0-9_.:/-]+$ ]] && printf '%s\n' "$name"
    done < <(sed 's/#.*//' "$file" | tr '\t\r[]' '    ')
}

_altqplay() {
    local IFS=$' \t\n' line=$COMP_LINE words=() here=0 head='' last='' at i part
    local options=() found=() given=' ' name='' option='' config=''
    COMPREPLY=()

    # Bash parts words at = and : as well, and here they are joined again. The word at the cursor is words[here],
    # `last` is what of it stands before the cursor, and `head` what of that bash does not replace.
    for i in "${!COMP_WORDS[@]}"; do
        part=${COMP_WORDS[i]}
        if ((i == 0)) || [[ $line == [[:blank:]]* ]]; then
            words+=('')
            [[ $part ]] && line=${line#"${line%%[![:blank:]]*}"}
        fi
        if ((i == COMP_CWORD)); then
            here=$((${#words[@]} - 1)) head=${words[${#words[@]} - 1]} last=$head
            at=$((COMP_POINT - ${#COMP_LINE} + ${#line}))
            if [[ $part ]] && ((at > 0)); then
                last+=${line:0:at}
                [[ $part == [=:]* ]] && head=$last
            elif [[ $part ]]; then
                words+=('') # the cursor stands before the part: there a word of its own begins
            fi
        fi
        words[${#words[@]} - 1]+=$part
        line=${line#"$part"}
    done

    # Which options are given, and of which the value stands at the cursor.
    case ${words[1]} in
        play | shares) options=(--config --interface --arrivals --departures --fates --stats --seed) ;;
        make) options=(--count --config --interface --arrivals --departures --fates --stats --seed) ;;
        check) options=(--config --interface) ;;
        bound) options=(--config --interface --longest --burst) ;;
        verify) options=(--config --interface --arrivals --departures --fates) ;;
        condition) options=(--config --interface --arrivals --marked) ;;
        chain) options=(--config --interface --arrivals --departures --fates --stats --seed --next --departures2 --fates2 --stats2 --path) ;;
    esac
    for ((i = 2; i < ${#words[@]}; i++)); do
        name=${words[i]%%=*}
        ((i == here)) || [[ " ${options[*]} " != *" $name "* ]] && continue
        given+="$name "
        if [[ ${words[i]} == *=* ]]; then
            part=${words[i]#*=}
        else
            i=$((i + 1)) part=${words[i]}
            ((i == here)) && option=$name
        fi
        [[ $name == --config ]] && config=$part
    done
    name=''
    if [[ -z $option && $last == --*=* ]]; then
        option=${last%%=*} name=$option=
    fi

    if ((here == 1)); then
        found=(play check bound make shares chain verify condition)
    elif [[ -z $option ]]; then
        for part in "${options[@]}"; do
            [[ $given == *" $part "* ]] || found+=("$part")
        done
    elif [[ $option == --interface || $option == --next && " ${options[*]} " == *" $option "* ]]; then
        while read -r part; do
            [[ -z $name && $part == -* ]] || found+=("$name$part") # a name with - at its front needs the equals sign
        done < <(_altqplay_interfaces "$config")
    elif [[ $option != --@(seed|count|longest|burst) && " ${options[*]} " == *" $option "* ]]; then
        compopt -o default # nothing is found here, so bash offers the names of files
    fi
    for part in "${found[@]}"; do
        [[ $part == "$last"* ]] && COMPREPLY+=("${part#"$head"}")
    done
}

complete -F _altqplay altqplay
