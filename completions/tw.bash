# Completion of tw for bash. It asks the script `words`, which lies beside this file or in the folder tw of the same share.

# The words of the line up to the cursor, as the shell's own breaks at colons and equals signs do not cut them.
_tw() {
    local line=${COMP_LINE:0:COMP_POINT} words begun kept script candidate
    script=$(dirname "${BASH_SOURCE[0]}")
    [[ -f $script/words ]] || script=$script/../../tw
    read -ra words <<<"$line"
    begun=
    if [[ $line != *[[:space:]] ]]; then
        begun=${words[-1]}
        unset 'words[-1]'
    fi
    case ${words[0]##*/} in
    task | timew) words=(tw "${words[0]##*/}" "${words[@]:1}") ;;
    esac
    if [[ ${words[1]-} == server ]]; then
        [[ ${#words[@]} -eq 3 ]] && mapfile -t COMPREPLY < <(compgen -f -- "$begun")
        return
    fi
    if [[ ${words[1]-} == check || ${words[1]-} == rescue ]]; then
        [[ ${#words[@]} -eq 2 ]] && mapfile -t COMPREPLY < <(compgen -f -- "$begun")
        return
    fi
    # The shell replaces only what comes after its last break.
    kept=
    [[ $begun == *[:=]* ]] && kept=${begun%"${begun##*[:=]}"}
    COMPREPLY=()
    while IFS= read -r candidate; do
        candidate=${candidate#"$kept"}
        [[ $candidate == *[:=.] ]] && compopt -o nospace
        COMPREPLY+=("$(printf '%q' "$candidate")")
    done < <(sh "$script/words" "$begun" "${words[@]:1}" 2>/dev/null)
}

# If task and timew are functions of tw: . ~/.local/share/bash-completion/completions/tw; complete -F _tw task timew
complete -F _tw tw
