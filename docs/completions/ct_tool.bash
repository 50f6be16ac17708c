# Completion of ct_tool in bash: its subcommands, their options, and words and files where they are wanted.
# docs/man/make.py writes this file from what ct_tool --help prints.

# What follows each subcommand, and with an empty word what follows the program: its options, those that take values
# with what each value is, and its operands. `command` is a subcommand, `file` a file, `goal` a word of a goal, `a|b` one
# of these words, `any` what isn't known; with + behind it any number of words.
_ct_tool_words() {
    case $1 in
    '')
        commands='check complete diagram find interact merge order record report schedule shrink state steps walk help'
        options='-h --help -V --version'
        values=''
        operands='command'
        ;;
    check)
        options='--expect-reports --quiet -h --help'
        values=''
        operands='file+'
        ;;
    complete)
        options='--json -h --help'
        values=''
        operands='file'
        ;;
    diagram)
        options='--from --to --columns --member --only -h --help'
        values='--from=any --to=any --columns=any --member=any --only=consensus'
        operands='file'
        ;;
    find)
        options='--members --turns --rate --cells --submit --crash --postpone --lose --repeat --batch --every --scatter'
        options+=' --lasting --crashes --cut --goal --seeds --jobs --quiet --count --json --best --tries --record -h --help'
        values='--members=any --turns=any --rate=any --cells=any --submit=any --crash=any --postpone=any --lose=any'
        values+=' --repeat=any --batch=any --every=any --scatter=any --lasting=any --crashes=any --cut=any --goal=goal+'
        values+=' --seeds=any --jobs=any --best=any --tries=any'
        operands=''
        ;;
    interact)
        options='--record --strict -h --help'
        values='--record=file'
        operands=''
        ;;
    merge)
        options='--record --presume --follow --idle -h --help'
        values='--idle=any'
        operands='file+'
        ;;
    order)
        options='--settled --fifo --json --schedule --all --follow --idle -h --help'
        values='--idle=any'
        operands='file+'
        ;;
    record)
        options='--partial -h --help'
        values=''
        operands='file'
        ;;
    report)
        options='-h --help'
        values=''
        operands='file'
        ;;
    schedule)
        options='-h --help'
        values=''
        operands='file'
        ;;
    shrink)
        options='--goal --tries --record --quiet -h --help'
        values='--goal=goal --tries=any'
        operands='file'
        ;;
    state)
        options='--after --json -h --help'
        values='--after=any'
        operands='file'
        ;;
    steps)
        options='--from --to --member --json -h --help'
        values='--from=any --to=any --member=any'
        operands='file'
        ;;
    walk)
        options='--members --turns --seed --rate --cells --submit --crash --postpone --lose --repeat --batch --every --scatter'
        options+=' --lasting --crashes --cut --until -h --help'
        values='--members=any --turns=any --seed=any --rate=any --cells=any --submit=any --crash=any --postpone=any --lose=any'
        values+=' --repeat=any --batch=any --every=any --scatter=any --lasting=any --crashes=any --cut=any --until=goal+'
        operands=''
        ;;
    help)
        options=''
        values=''
        operands='command+'
        ;;
    *)
        options='' values='' operands=''
        ;;
    esac
}

# Leaves in `wanted` what the values of the option are.
_ct_tool_wants() {
    local value
    wanted=()
    for value in $values; do
        [[ $value != "$1="* ]] || IFS=, read -ra wanted <<<"${value#*=}"
    done
}

# Answers for a word of this kind.
_ct_tool_answer() {
    case $1 in
    command)
        mapfile -t COMPREPLY < <(compgen -W "$commands" -- "$2")
        ;;
    file)
        compopt -o filenames -o bashdefault -o default 2>/dev/null
        mapfile -t COMPREPLY < <(compgen -f -- "$2")
        ;;
    goal)
        mapfile -t COMPREPLY < <(compgen -W 'all any up ever never and crashed idle settled stuck instance round phase received decided delivered count
            table waiting waits heard acked estimate may refuses suspects follows chooses concludes' -- "$2")
        ;;
    any) ;;
    *)
        mapfile -t COMPREPLY < <(compgen -W "${1//|/ }" -- "$2")
        ;;
    esac
}

# Goes through the words before the one that is completed, to know what is wanted there.
_ct_tool() {
    local commands options values operands wanted=() left command='' plain='' at before kind
    local word=${COMP_WORDS[COMP_CWORD]}
    COMPREPLY=()
    _ct_tool_words ''
    read -ra left <<<"$operands"
    for ((at = 1; at < COMP_CWORD; at++)); do
        before=${COMP_WORDS[at]}
        if [[ $before == '=' ]]; then
            continue
        elif [[ $before == [\<\>]* ]]; then
            wanted=(file "${wanted[@]}")
        elif [[ ! $plain && $before == -- ]]; then
            plain=yes wanted=()
        elif [[ ! $plain && $before == -?* ]]; then
            _ct_tool_wants "$before"
        elif [[ ${#wanted[@]} -gt 0 ]]; then
            [[ ${wanted[0]} == *+ ]] || wanted=("${wanted[@]:1}")
        elif [[ ! $command ]]; then
            command=$before
            _ct_tool_words "$command"
            read -ra left <<<"$operands"
        elif [[ ${left[0]-} != *+ ]]; then
            left=("${left[@]:1}")
        fi
    done
    [[ $word != [\<\>]* ]] || wanted=(file)
    [[ $word != [=\<\>]* ]] || word=''
    kind=${wanted[0]-${left[0]-}}
    if [[ ! $plain && ( $word == -* || ! $kind ) ]]; then
        kind=${options// /|}
    fi
    _ct_tool_answer "${kind%+}" "$word"
}

complete -F _ct_tool ct_tool
