# Prints the completions of the last word of each line of standard input, in order, after what the line says. The word after the last
# space may be empty. bash runs this file.
source "$(dirname "$(command -v try)")/completions/cobol.bash"
while IFS= read -r line; do
    read -ra COMP_WORDS <<< "$line"
    [[ $line == *' ' ]] && COMP_WORDS+=("")
    COMP_CWORD=$((${#COMP_WORDS[@]} - 1))
    _cobol "${COMP_WORDS[0]}" "${COMP_WORDS[COMP_CWORD]}" "${COMP_WORDS[COMP_CWORD - 1]}"
    echo "$line| $(printf '%s\n' "${COMPREPLY[@]}" | sort | tr '\n' ' ')"
done
