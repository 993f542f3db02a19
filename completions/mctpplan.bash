# Completions of mctpplan for bash: commands, files, names of the plan's nodes, codes, and kinds of records and texts.
# Source it, or put it into /usr/share/bash-completion/completions/mctpplan.

# tools/made writes these commands
_mctpplan_commands='make rows check certify move certifymove diff rollout assign sim expect script simmove walk export
reach matrix require trace draw explain faults fix lint verify show decode audit emulate capture
report describe record code schema guide version'

# tools/made writes these codes
_mctpplan_codes='A01 A02 A03 A04 A05 B01 B02 B03 B10 B11 B12 C01 C02 C03 C04 C05 C06 C07 C08 C09 C10 C11 C12 C13 C14
C15 C16 D01 D02 D03 D04 D05 D06 E01 E02 E03 E04 E05 G01 G02 G03 G04 G05 G06 G07 G08 G09 G10 G11 H01
H02 H03 H04 H05 H06 H07 H08 H09 H10 H11 H12 H13 H14 H15 H16 H17 H18 H19 H20 H21 H22 H23 J01 J02 J03
J04 J05 J06 J07 J08 J09 K01 K02 K03 K04 L01 L02 L03 L04 L05 L06 M01 M02 M03 N01 N02 N03 N04 N05 N06
N07 N08 N09 N10 N11 N12 N13 P01 P02 P03 P04'

# The word without its quotes and backslashes. Nothing in it is run.
_mctpplan_unquoted() {
    local word=$1
    case $word in
        \'*) word=${word#\'} word=${word%\'} ;;
        \"*) word=${word#\"} word=${word%\"} word=$(sed 's/\\\([\\"$`]\)/\1/g' <<<"$word") ;;
        *) word=$(sed 's/\\\(.\)/\1/g' <<<"$word") word=${word/#~\//$HOME/} ;;
    esac
    printf '%s' "$word"
}

# The names of a plan's nodes. What has a binding is a bus.
_mctpplan_nodes() {
    tr -d '\r\n' <"$1" | sed 's/{[^{}]*"binding"[^{}]*}//g' | grep -o '"name"[[:space:]]*:[[:space:]]*"[^"]*"' | cut -d '"' -f 4
}

_mctpplan() {
    local current place=$COMP_CWORD command=${COMP_WORDS[1]-}
    local files=0 plan name
    current=$(_mctpplan_unquoted "${COMP_WORDS[COMP_CWORD]}")
    COMPREPLY=()
    if [ "$place" -eq 1 ]; then
        mapfile -t COMPREPLY < <(compgen -W "$_mctpplan_commands" -- "$current")
        return
    fi
    case $command in
        certify | lint | rows | fix) files=1 ;;
        certifymove | diff | rollout | check | assign | walk | script | reach | matrix | require | trace | draw | faults | report | audit | emulate) files=2 ;;
        move | sim | export | explain | capture) files=3 ;;
        simmove) files=4 ;;
        expect) files=3 ;;
        code)
            if [ "$place" -eq 2 ]; then
                mapfile -t COMPREPLY < <(compgen -W "$_mctpplan_codes" -- "${current^^}")
            fi
            return
            ;;
        show)
            if [ "$place" -eq 2 ]; then
                mapfile -t COMPREPLY < <(compgen -W 'packet record' -- "$current")
            fi
            return
            ;;
        record)
            if [ "$place" -eq 2 ]; then
                mapfile -t COMPREPLY < <(compgen -W 'terminus-locator numeric-sensor state-sensor entity-association other' -- "$current")
            fi
            return
            ;;
        schema)
            if [ "$place" -eq 2 ]; then
                mapfile -t COMPREPLY < <(compgen -W 'plan certificate events board answer' -- "$current")
            fi
            return
            ;;
        guide)
            if [ "$place" -eq 2 ]; then
                mapfile -t COMPREPLY < <(compgen -W "$_mctpplan_commands" -- "$current")
            fi
            return
            ;;
    esac
    if [[ $command == draw && $current == -* ]]; then
        mapfile -t COMPREPLY < <(compgen -W '--rows' -- "$current")
    elif [[ $command == export && $current == -* ]]; then
        mapfile -t COMPREPLY < <(compgen -W '--link' -- "$current")
    elif [[ $command == export && $place -eq 2 ]]; then
        mapfile -t COMPREPLY < <(compgen -W 'linux mctpd devicetree c entries records' -- "$current")
    elif [[ $command == script && $current == -* ]]; then
        mapfile -t COMPREPLY < <(compgen -W '--lose --repeat' -- "$current")
    elif [[ $command == script && $place -eq 4 ]]; then
        COMPREPLY=(walk)
    elif [[ $command == make && $current == -* ]]; then
        mapfile -t COMPREPLY < <(compgen -W '--anew --certificate --keep --out' -- "$current")
    elif [[ $command == rollout && $current == -* ]]; then
        mapfile -t COMPREPLY < <(compgen -W '--write' -- "$current")
    elif [[ $command == rollout && ${COMP_WORDS[COMP_CWORD - 1]} == --write ]]; then
        compopt -o filenames 2>/dev/null
        mapfile -t COMPREPLY < <(compgen -d -- "$current")
    elif [[ $command == make ]]; then
        compopt -o filenames 2>/dev/null
        mapfile -t COMPREPLY < <(compgen -d -- "$current"; compgen -f -X '!*.toml' -- "$current"; compgen -f -X '!*.json' -- "$current")
    elif [[ $command == expect && $place -eq 5 ]]; then
        compopt -o filenames 2>/dev/null
        mapfile -t COMPREPLY < <(compgen -f -- "$current")
    elif [[ $command == explain && $current == -* ]]; then
        mapfile -t COMPREPLY < <(compgen -W '--json --move' -- "$current")
    elif [[ $command == faults && $current == -* ]]; then
        mapfile -t COMPREPLY < <(compgen -W '--json --sarif' -- "$current")
    elif [[ $command =~ ^(lint|reach|trace)$ && $current == -* ]]; then
        mapfile -t COMPREPLY < <(compgen -W '--json' -- "$current")
    elif [[ $command == verify && $current == -* ]]; then
        mapfile -t COMPREPLY < <(compgen -W '--strict' -- "$current")
    elif [[ $command == verify && $place -eq 2 ]]; then
        compopt -o filenames 2>/dev/null
        mapfile -t COMPREPLY < <(compgen -d -- "$current")
    elif [[ $command == emulate && $current == -* ]]; then
        mapfile -t COMPREPLY < <(compgen -W '--addresses --configured --end' -- "$current")
    elif [[ $command == audit && $current == -* ]]; then
        mapfile -t COMPREPLY < <(compgen -W '--bus --complete' -- "$current")
    elif [[ $command == decode && $place -eq 2 || $command == audit && $place -eq 4 ]]; then
        compopt -o filenames 2>/dev/null
        mapfile -t COMPREPLY < <(compgen -f -- "$current")
    elif [[ $((place - 1)) -le $files || $command == decode && $place -eq 3 || ${COMP_WORDS[COMP_CWORD - 1]} == --move ]]; then
        compopt -o filenames 2>/dev/null
        mapfile -t COMPREPLY < <(compgen -d -- "$current"; compgen -f -X '!*.json' -- "$current")
    elif [[ $command == require && $place -eq 4 ]]; then
        compopt -o filenames 2>/dev/null
        mapfile -t COMPREPLY < <(compgen -f -- "$current")
    elif [[ $command =~ ^(walk|emulate)$ && $place -eq 4 || $command =~ ^(script|export)$ && $place -eq 5 || $command == trace && $place -le 5 ]]; then
        plan=${COMP_WORDS[2]}
        [[ $command == export ]] && plan=${COMP_WORDS[3]}
        plan=$(_mctpplan_unquoted "$plan")
        [ -f "$plan" ] || return
        # (compgen would run what stands in a name)
        while IFS= read -r name; do
            [[ $name == "$current"* ]] && COMPREPLY+=("$(printf '%q' "$name")")
        done < <(_mctpplan_nodes "$plan")
    fi
}

complete -F _mctpplan mctpplan
