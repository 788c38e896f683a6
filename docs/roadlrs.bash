# Completions of roadlrs for bash. A command is one line of each table below: the kinds of its words, and its options.
# _roadlrs_word completes a word by its kind. tests/pages/manual_test.py compares the tables with the program.

# each command, and the kinds of its words in order; the last kind goes on where it ends in +
declare -gA _roadlrs_words=(
    [edit]="db sheet"
    [survey]="db sheet"
    [at]="db none method"
    [where]="db place none"
    [translate]="db none method none target"
    [strip]="db none side none+"
    [diagram]="db none+"
    [totals]="db"
    [lengths]="db"
    [find]="db none"
    [route]="db none"
    [ask]="db sheet"
    [serve]="db none+"
    [page]="folder"
    [help]="topic"
    [check]="db sheet"
    [diff]="db db none+"
    [draft]="drafted db none+"
    [tidy]="sheet"
    [list]="db listed"
    [rows]="db"
    [overlay]="db none+"
    [gone]="db"
    [history]="db none"
    [log]="db none"
    [audit]="db"
)

# the options that go with every command
declare -g _roadlrs_general="--existing --explain --wait= --expect="

# the verbs of edit sheets, on which there is help
declare -g _roadlrs_verbs="link class route ref unref enter retire supersede split join renumber recalibrate turn realign close"

# the options of each command besides --help and those; one that wants a value ends in =
declare -gA _roadlrs_options=(
    [edit]="--sums --resume --all --whole --ask"
    [survey]="--sums --resume --all --whole --ask"
    [serve]="--sums --log --end-on-fault --most-reply= --page"
    [diagram]="--from= --to="
    [check]="--survey --diff"
    [diff]="--since="
    [draft]="--number= --key="
    [tidy]="--survey"
    [lengths]="--route= --by= --text --columns="
    [list]="--route= --exact --text --columns="
    [rows]="--route= --from= --to= --class= --asset= --exact --on-links --text --columns="
    [overlay]="--route= --side= --from= --to= --gaps --text --columns="
    [gone]="--edit= --class= --since= --until= --text --columns="
    [history]="--text --columns="
    [log]="--until= --key= --text --sum"
)

_roadlrs_reply() { mapfile -t COMPREPLY < <(compgen "$@"); }

# files that begin with this, and these words
_roadlrs_file() {
    # as a file's name readline would write :memory: with backslashes
    if [[ $1 == "$2"* && -n $2 ]]; then _roadlrs_reply -W "$1" -- "$2"; return; fi
    compopt -o filenames 2>/dev/null
    _roadlrs_reply -f -W "$1" -- "$2"
}

# the word under the cursor, by its kind
_roadlrs_word() {
    local kind=$1 cur=$2
    case $kind in
        db) _roadlrs_file ':memory:' "$cur" ;;
        sheet) _roadlrs_file 'stdin' "$cur" ;;
        folder)
            compopt -o filenames 2>/dev/null
            _roadlrs_reply -d -- "$cur" ;;
        method) _roadlrs_reply -W 'abs rel int' -- "$cur" ;;
        target)
            # the name of a referent follows
            [[ rel: != "$cur"* || -z $cur ]] || compopt -o nospace 2>/dev/null
            _roadlrs_reply -W 'abs int rel: link' -- "$cur" ;;
        side) _roadlrs_reply -W 'L R' -- "$cur" ;;
        listed) _roadlrs_reply -W 'routes links classes refs marks pieces' -- "$cur" ;;
        drafted) _roadlrs_reply -W 'split bypass retire replace move merge undo' -- "$cur" ;;
        place) _roadlrs_reply -W 'link' -- "$cur" ;;
        command) _roadlrs_reply -W "${!_roadlrs_words[*]}" -- "$cur" ;;
        topic) _roadlrs_reply -W "${!_roadlrs_words[*]} $_roadlrs_verbs" -- "$cur" ;;
    esac
    # a word with a colon is several words to bash: what stands before the last colon is typed already
    if [[ $cur == *:* && $COMP_WORDBREAKS == *:* ]]; then COMPREPLY=("${COMPREPLY[@]#"${cur%"${cur##*:}"}"}"); fi
}

# which word of the command this is, and its kind
_roadlrs_kind() {
    local place=$1
    shift
    local kinds=("$@") last=$(($# - 1))
    if ((place > last)); then
        [[ $last -ge 0 && ${kinds[last]} == *+ ]] || return
        place=$last
    fi
    echo "${kinds[place]%+}"
}

_roadlrs() {
    local line cur place=-1 command='' word last='' only_words='' options=''
    # the words as they were typed: bash cuts them at colons and equals signs
    line=${COMP_LINE:0:COMP_POINT}
    local typed
    # a space behind a backslash is part of a word
    # shellcheck disable=SC2162
    read -a typed <<<"$line"
    cur=''
    if [[ $line != *[[:space:]] || $line == *\\[[:space:]] ]]; then
        cur=${typed[-1]}
        unset 'typed[-1]'
    fi
    COMPREPLY=()
    for word in "${typed[@]:1}"; do
        if [[ $last == --*= ]]; then last=''; continue; fi
        last=''
        if [[ -z $only_words && $word == -- ]]; then
            only_words=yes
        elif [[ -z $only_words && $word == -* ]]; then
            [[ " ${_roadlrs_options[${command:-help}]:-} $_roadlrs_general " == *" $word= "* ]] && last="$word="
        elif [[ -z $command ]]; then
            command=$word
            place=0
        else
            place=$((place + 1))
        fi
    done
    if [[ -n $last ]]; then
        # the value of an option: of classes, routes and numbers nothing is known here
        return
    fi
    if [[ -z $command ]]; then
        options="--help --version $_roadlrs_general"
        if [[ $cur == -* ]]; then _roadlrs_reply -W "${options//=/}" -- "$cur"; else _roadlrs_word command "$cur"; fi
    elif [[ $cur == -* && -z $only_words ]]; then
        options="${_roadlrs_options[$command]:-} $_roadlrs_general --help"
        _roadlrs_reply -W "${options//=/}" -- "$cur"
    else
        local kinds kind
        read -ra kinds <<<"${_roadlrs_words[$command]:-}"
        kind=$(_roadlrs_kind "$place" "${kinds[@]}")
        _roadlrs_word "${kind:-none}" "$cur"
    fi
}

complete -F _roadlrs roadlrs
