# Completion of the programs and the scripts for bash: commands, options and files, and
# the names of a dump if its file comes before them. Source this file, or let `make install` put it
# where bash-completion finds it.

# _vcdkit_options COMMAND ..: the options that the help of a command shows, a line each, with what
# comes after it: `--help`, `-i FILE`.
_vcdkit_options() {
    "$@" --help 2> /dev/null < /dev/null | sed -nE '
        s/^ +-([A-Za-z]), --/-\1\n --/
        s/(^|\n) +(--?[A-Za-z][A-Za-z-]*)( <?([A-Z]+))?.*/\1\2 \4/p'
}

# _vcdkit_kind OPTION OPTIONS: sets kind to what comes after this option.
_vcdkit_kind() {
    local option
    while read -r option kind; do
        [[ $option == "$1" ]] && return
    done <<< "$2"
}

# _vcdkit_names START COMMAND ..: the names of the rows of a command that begin with some text, up
# to the next point each: a variable, or a scope and the point. Of more than 1,000 only what they
# have in common, and an empty line: a scope with many variables takes no time to show.
_vcdkit_names() {
    "${@:2}" 2> /dev/null | start=$1 LC_ALL=C awk '
        BEGIN { start = ENVIRON["start"]; from = length(start) + 1 }
        substr($0, 1, from - 1) == start {
            path = substr($0, 1, index($0, " ") - 1)
            point = index(substr(path, from), ".")
            if (point) path = substr(path, 1, from + point - 1)
            if (path in seen || path == "") next
            seen[path]
            if (++count <= 1000) names[count] = path
            if (count == 1) common = path
            while (substr(path, 1, length(common)) != common)
                common = substr(common, 1, length(common) - 1)
        }
        END {
            if (count > 1000) { if (length(common) >= from) print common "\n" }
            else for (i = 1; i <= count; i++) print names[i]
        }'
}

# A word of the command line as the shell will read it: without quotes, and without the backslashes
# before its bytes.
_vcdkit_plain() {
    local word=$1
    case $word in
        \'*) word=${word#\'} word=${word%\'} ;;
        \"*) word=${word#\"} word=${word%\"} ;;
        '~/'*) word=$HOME/${word#'~/'} ;&
        *) IFS= read word <<< "$word" ;;
    esac
    printf '%s\n' "$word"
}

# Parts what was typed into words and current, the word to complete: bash also parts words at `=`
# and `:`, which names and files may have.
_vcdkit_split() {
    local line=${COMP_LINE:0:COMP_POINT} word= next char quote= i
    words=()
    for ((i = 0; i < ${#line}; i++)); do
        char=${line:i:1} next=
        if [[ $char == \\ && $quote != \' ]]; then next=${line:$((++i)):1}
        elif [[ -n $quote ]]; then [[ $char == "$quote" ]] && quote=
        elif [[ $char == [\'\"] ]]; then quote=$char
        elif [[ $char == [[:space:]] ]]; then
            [[ -n $word ]] && words+=("$word")
            word=
            continue
        fi
        word+=$char$next
    done
    current=$word
}

# _vcdkit_complete_names COMMAND ..: completes current with the names of the rows of a command.
_vcdkit_complete_names() {
    local word i
    mapfile -t COMPREPLY < <(_vcdkit_names "$(_vcdkit_plain "$current")" "$@")
    if [[ ${#COMPREPLY[@]} == 2 && -z ${COMPREPLY[1]} ||
        ${#COMPREPLY[@]} == 1 && ${COMPREPLY[0]} == *. ]]; then
        compopt -o nospace 2> /dev/null
        COMPREPLY=("${COMPREPLY[0]}")
    fi
    # Between quotes bash takes a word as it is; else it is quoted, and what comes before a mark at
    # which bash parts words left out.
    [[ $current == [\'\"]* ]] && return
    local before=${current%"${current##*[=:@]}"}
    for i in "${!COMPREPLY[@]}"; do
        printf -v word %q "${COMPREPLY[i]}"
        COMPREPLY[i]=${word#"$before"}
    done
}

# The help says which commands and options there are, and which words they take.
_vcdkit() {
    COMPREPLY=()
    local program=${1/#~\//$HOME/} words current word kind= command= argument= file= ended=
    _vcdkit_split
    local options=$(_vcdkit_options "$program")
    for word in "${words[@]:1}"; do
        if [[ $kind == FILE ]]; then file=$(_vcdkit_plain "$word") kind=
        elif [[ -n $kind ]]; then kind=
        elif [[ -n $ended ]]; then continue
        elif [[ $word == -- ]]; then ended=1
        elif [[ $word == -i?* ]]; then file=${word#-i} file=$(_vcdkit_plain "${file#=}")
        elif [[ $word == -* ]]; then _vcdkit_kind "$word" "$options"
        elif [[ -z $command ]]; then
            command=$word options=$(_vcdkit_options "$program" "$command")
            argument=$("$program" "$command" --help 2> /dev/null < /dev/null |
                sed -nE 's/^  [[<]((FILE|NAME)[]>](\.\.\.)?) .*/\1/p')
        elif [[ $argument == 'FILE]' ]]; then file=$(_vcdkit_plain "$word")
        fi
    done

    case $kind:$command:$argument in
        FILE:*) compopt -o default 2> /dev/null; return ;;
        ?*:*:*) return ;;
    esac
    if [[ $current == -* && -z $ended ]]; then
        COMPREPLY=($(compgen -W "$(sed 's/ .*//' <<< "$options")" -- "$current"))
    elif [[ -z $command ]]; then
        COMPREPLY=($(compgen -W "$("$program" --help 2> /dev/null |
            sed -nE '/^Commands:/,/^$/s/^  ([a-z]+) .*/\1/p')" -- "$current"))
    elif [[ $argument == FILE* && -z $file ]]; then
        compopt -o default 2> /dev/null
    elif [[ $argument == NAME* && -f $file ]]; then
        _vcdkit_complete_names "$program" list -i "$file"
    fi
}

# vcdkit-compare and vcdkit-strobe: their names are of the dump of -i, those of the former X=Y.
_vcdkit_other() {
    COMPREPLY=()
    local program=${1/#~\//$HOME/} words current word option= kind= file= ended=
    _vcdkit_split
    local options=$(_vcdkit_options "$program")
    for word in "${words[@]:1}"; do
        if [[ -n $kind ]]; then
            [[ $option == -i ]] && file=$(_vcdkit_plain "$word")
            kind=
        elif [[ -n $ended ]]; then continue
        elif [[ $word == -- ]]; then ended=1
        elif [[ $word == -i?* ]]; then file=${word#-i} file=$(_vcdkit_plain "${file#=}")
        elif [[ $word == -* ]]; then option=$word; _vcdkit_kind "$word" "$options"
        fi
    done
    if [[ $kind == FILE ]]; then
        compopt -o default 2> /dev/null
    elif [[ $kind != @(|NAME|CLOCK) ]]; then
        return
    elif [[ -z $kind$ended && $current == -* ]]; then
        COMPREPLY=($(compgen -W "$(sed 's/ .*//' <<< "$options")" -- "$current"))
    elif [[ -f $file ]]; then
        if [[ -z $kind && $program == *-compare ]]; then
            [[ $current == *=* ]] || compopt -o nospace 2> /dev/null
            current=${current#*=}
        fi
        program=${program%-compare}
        _vcdkit_complete_names "${program%-strobe}" list -i "$file"
    fi
}

# A script: its help says which options there are, and which words they take. The first word is a
# dump, of vcdkit-diff the second too, and further ones are names of it. All those of vcdkit-explain
# are dumps.
_vcdkit_script() {
    COMPREPLY=()
    local words current word help kind= file= count=0 files=1
    local script=${1/#~\//$HOME/}
    _vcdkit_split
    help=$(_vcdkit_options "$script")
    for word in "${words[@]:1}"; do
        if [[ -n $kind ]]; then kind=
        elif [[ $word == -?* ]]; then _vcdkit_kind "$word" "$help"
        else file=${file:-$(_vcdkit_plain "$word")} count=$((count + 1))
        fi
    done
    if [[ -z $kind && $current == -* ]]; then
        COMPREPLY=($(compgen -W "$(sed 's/ .*//' <<< "$help")" -- "$current"))
        return
    fi
    case ${1##*/} in
        vcdkit-diff) files=2 ;;
        vcdkit-explain) files=$((count + 1)) ;;
    esac
    [[ -n $kind || $count -ge $files ]] || kind=FILE
    case $kind in
        FILE | DIRECTORY | OUT) compopt -o default 2> /dev/null ;;
        '' | CLOCK | NAME)
            [[ -f $file ]] && _vcdkit_complete_names "${script%"${script##*/}"}vcdkit-find" "$file"
            ;;
    esac
}

complete -F _vcdkit vcdkit
complete -F _vcdkit_other vcdkit-compare vcdkit-strobe
complete -F _vcdkit_script vcdkit-close-sections vcdkit-diff vcdkit-explain vcdkit-find \
    vcdkit-four-state vcdkit-info vcdkit-join-bits vcdkit-stats vcdkit-table vcdkit-values \
    vcdkit-wave vcdkit-when vcdkit-x
