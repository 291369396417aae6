# Completes the words of gtfs(1) in bash, from 4.3 on. It needs no other completions: `source gtfs.bash` is enough.

# What may stand behind a command: a number of folders, and options with the names of their values, as in the usage.
_gtfs_expect() {
    case $1 in
        check) folders=1 options+=([--values]='' [--summary]='' [--advise]='' [--day]=D) ;;
        board) folders=1 options+=([--zone]=FILE [--stop]=ID [--from]=T [--until]=T [--limit]=N [--after]=KEY [--interpolate]='') ;;
        boards) folders=1 options+=([--zone]=FILE [--requests]=FILE [--interpolate]='') ;;
        serve) folders=1 options+=([--zone]=FILE [--interpolate]='') ;;
        timetable) folders=1 options+=([--route]=ID [--date]=D [--direction]='0|1' [--interpolate]='') ;;
        merge) folders=3 options+=([--near]=N [--cutoff]=D) ;;
        *) return 1 ;;
    esac
}

# Puts the words of the line up to the cursor into `words`, each in one piece: bash has cut them at `=`, `:` and `@` too.
_gtfs_join() {
    local part line=${COMP_LINE:0:COMP_POINT}
    for part in "${COMP_WORDS[@]:0:COMP_CWORD + 1}"; do
        if [[ ${#words[@]} == 0 || $line == [[:blank:]]* ]]; then words+=("$part"); else words[-1]+=$part; fi
        line=${line#"${line%%[![:blank:]]*}"}
        line=${line#"$part"}
    done
}

# Passes over a word before the cursor: what was given is not offered again. Behind an option `value` names its value.
_gtfs_pass() {
    local option=${1%%=*}
    if [[ -n $value ]]; then
        value=
    elif [[ $1 != -* ]]; then
        folders=$((folders - 1))
    elif [[ -n ${options[$option]+known} ]]; then
        [[ $1 == *=* ]] || value=${options[$option]}
        unset "options[$option]"
    fi
}

# Offers the paths, or those of the words, that begin with what stands at the cursor.
_gtfs_paths() {
    compopt -o filenames 2>/dev/null
    mapfile -t COMPREPLY < <(compgen "$1" -- "$2")
}

_gtfs_words() {
    mapfile -t COMPREPLY < <(compgen -W "${*:2}" -- "$1")
}

_gtfs() {
    local word value='' folders=0 words=()
    local -A options=([--help]='')
    COMPREPLY=()
    _gtfs_join
    if ((${#words[@]} > 2)); then
        _gtfs_expect "${words[1]}" || return 0
        for word in "${words[@]:2:${#words[@]} - 3}"; do _gtfs_pass "$word"; done
    else
        options[--version]=''
    fi
    word=${words[-1]}
    [[ $word != --*=* || -n $value ]] || value=${options[${word%%=*}]-}
    if [[ $value == FILE ]]; then
        _gtfs_paths -f "$2"
    elif [[ -n $value ]]; then
        [[ $value != *'|'* ]] || _gtfs_words "$2" "${value//|/ }"
    elif ((${#words[@]} == 2)) && [[ $word != -* ]]; then
        _gtfs_words "$2" check board boards serve timetable merge
    elif ((folders > 0)) && [[ $word != -* ]]; then
        _gtfs_paths -d "$2"
    else
        _gtfs_words "$2" "${!options[@]}"
    fi
}

complete -F _gtfs gtfs
