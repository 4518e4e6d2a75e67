# Made by scripts/from_help.py from the program's help; change that, and not this file.

_ga_bench_route() {
    local head=${1%"${1##*[,/]}"} route=${1##*/} last nodes=() row column node is_node='^[0-7](0[0-9]|1[0-7])$'
    last=${head##*/}
    last=${last%,}
    last=${last##*,}
    if [[ $route == *,* ]]; then
        [[ $last =~ $is_node ]] || return
        row=${last:0:1} column=$((10#${last:1}))
        ((column == 17)) || nodes+=("$row$(printf %02d $((column + 1)))")
        ((column == 0)) || nodes+=("$row$(printf %02d $((column - 1)))")
        ((row == 7)) || nodes+=("$((row + 1))${last:1}")
        ((row == 0)) || nodes+=("$((row - 1))${last:1}")
    elif [[ $head ]]; then
        nodes=("${head%%[,/]*}") last=
        [[ ${nodes[0]} =~ $is_node ]] || return
    else
        nodes=({0,7}{00..17} {1..6}{00,17})
    fi
    for node in "${nodes[@]}"; do
        [[ $last && ,${head//\//,} == *,$node,* ]] || printf '%s%s\n' "$head" "$node"
    done
}

_ga_bench() {
    local word=${COMP_WORDS[COMP_CWORD]} before=${COMP_WORDS[COMP_CWORD - 1]} options operands kind at
    local candidates candidate
    COMPREPLY=()
    # Of --route=708 bash makes three words.
    if [[ $before == = ]]; then
        before=${COMP_WORDS[COMP_CWORD - 2]}
    elif [[ $word == = ]]; then
        word=
    fi
    case $((COMP_CWORD > 1))${COMP_WORDS[1]} in
    0*) options=(-h --help -V --version) operands=(COMMAND) ;;
    1one) options=(-h --help) operands=(TRIES FILE) ;;
    1asm) options=(-h --help) operands=(FILE) ;;
    1dis) options=(--code -h --help) operands=(FILE) ;;
    1boot) options=(-h --help) operands=(ROUTE FILE) ;;
    1run) options=(-h --help) operands=(ROUTE WORKERS TURNS FILE) ;;
    1debug) options=(--place --route --any-source -h --help) operands=(FILE) ;;
    1replay) options=(-h --help) operands=(FILE) ;;
    1expand) options=(-h --help) operands=(FILE) ;;
    1list) options=(--place --route --turns --labels --counts -h --help) operands=(FILE) ;;
    1lint) options=(--deny --json -h --help) operands=(FILE) ;;
    1race) options=(--place --route --turns --witness -h --help) operands=(FILE) ;;
    1map) options=(--place --route --turns -h --help) operands=(FILE) ;;
    1profile) options=(--place --route --turns --from --json -h --help) operands=(FILE) ;;
    1trace) options=(--place --route --turns --nodes --save -h --help) operands=(FILE) ;;
    1report) options=(--place --route --turns --from -h --help) operands=(FILE) ;;
    1check) options=(--any-source -h --help) operands=(FILE...) ;;
    1record) options=(--any-source --write -h --help) operands=(FILE...) ;;
    1explain) options=(-h --help) operands=(NAME) ;;
    1help) options=() operands=(COMMAND) ;;
    *) return ;;
    esac
    # The operands before this word, without options and their values, show which one it is.
    for ((at = 2; at < COMP_CWORD; at++)); do
        case ${COMP_WORDS[at]} in
        --code | --route | --turns | --from | --nodes | --save) [[ ${COMP_WORDS[at + 1]} != = ]] && ((at++)) || ((at += 2)) ;;
        *[\<\>]*) ((at++)) ;;
        -?*) ;;
        *) [[ ${operands[0]-} == *... ]] || operands=("${operands[@]:1}") ;;
        esac
    done
    kind=${operands[0]-}
    [[ $word != -* ]] || kind=options
    if [[ $word == *[\<\>] ]]; then
        kind=FILE word=
    elif [[ $before == *[\<\>]* ]]; then
        kind=FILE
    fi
    case $before in
    --code) kind=N ;;
    --route) kind=ROUTE ;;
    --turns) kind=N ;;
    --from) kind=WHERE ;;
    --nodes) kind=LIST ;;
    --save) kind=SAVE ;;
    esac
    case $kind in
    FILE*)
        mapfile -t COMPREPLY < <(compgen -f -- "$word")
        compopt -o filenames -o default 2>/dev/null
        return
        ;;
    ROUTE)
        mapfile -t candidates < <(_ga_bench_route "$word")
        compopt -o nospace 2>/dev/null
        ;;
    COMMAND) candidates=(one asm dis boot run debug replay expand list lint race map profile trace report check record explain help) ;;
    NAME)
        candidates=(BadToken NumberRange BadNode DuplicateNode DuplicateLabel ReservedLabel OpenBracket
            BadWord NoNode Empty UndefinedLabel OutOfReach UnextAlone TooLong ReservedName
            DuplicateName OpenDefinition NoNeighbour UnknownBody TooLarge MixedSides
            BadInclude IncludeCycle IncludeDepth IncludeCount IncludeSize UnextRepeats
            SplitLoop RunsOff PushesTooMany PopsTooMany UnusedLabel Unreachable
            SeveralPorts ReturnsNowhere LeavesExtended OverMemory IntoData BeginsInData
            ReadsIo EdgePort BadRoute NotEdge NotNeighbour Repeated OtherRoot Unreached
            BadCommand BadAddress BadSide BadCount BadValue NotHeld BadProfile NoGo Source
            Asm Route Tree Boot EarlyReply differs read NoFile Folder NotAFile Outside
            Exists NoName BadText BadCode write Write memory Memory own take post check
            input stopped Counted IoRead Rom Unmapped MultiWrite carry moved waits held
            stuck ring race turn place step slot follower profile const body use include
            to)
        ;;
    options) candidates=("${options[@]}") ;;
    *) return ;;
    esac
    # `compgen -W` would expand what is typed, and run its commands.
    for candidate in "${candidates[@]}"; do
        [[ $candidate != "$word"* ]] || COMPREPLY+=("$candidate")
    done
} && complete -o bashdefault -F _ga_bench ga-bench
