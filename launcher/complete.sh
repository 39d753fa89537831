# shellcheck shell=bash
# Completions of the words of `mpwb` for bash, zsh and fish, made of what `write_help` has written to a folder.

# What stands behind a command, place by place: a folder, a file, a word that is explained, a command, or something that nobody can tell beforehand.
# In all further places stands what stands in the last one.
operands_of() {
    case $1 in
    explain) echo words ;;
    help) echo commands ;;
    ask | join | watch) echo folders none ;;
    install) echo folders ;;
    build | package | test) echo none ;;
    *) case $(words_before_file "$1") in 0) echo files ;; 1) echo none files ;; *) echo none none files ;; esac ;;
    esac
}

value_is_folder() { [ "$1" = FOLDER ]; }

# all words of a command that can be told beforehand: its options, and its operands where these are words
words_of() {
    {
        options_in "$1/$2" | awk '{ print $1 }'
        echo --help
        case $(operands_of "$2") in words) cat "$1/words" ;; commands) awk '{ print $1 }' "$1/commands" ;; esac
    } | sort -u | tr '\n' ' '
}

# the options, of all commands, whose first value is a folder, or another one, or that have a `second` one
options_with() {
    local command option values
    while read -r command _; do
        while read -r option values _; do
            case $values in
            -) ;;
            *,*) printf '%s\n' "other $option" "second $option" ;;
            *) if value_is_folder "$values"; then echo "folder $option"; else echo "other $option"; fi ;;
            esac
        done < <(options_in "$1/$command")
    done <"$1/commands" | sort -u | sed -n "s/^$2 //p" | paste -s -d '|'
}

# the options whose value is a folder, each behind its command: the same option may take something else with another one
folders_with() {
    local command option values
    while read -r command _; do
        while read -r option values _; do
            if value_is_folder "$values"; then echo "'$command $option'"; fi
        done < <(options_in "$1/$command")
    done <"$1/commands" | paste -s -d '|'
}

complete_in_bash() {
    local command _
    cat <<'EOF'
# completion of mpwb for bash

_mpwb() {
    local word=${COMP_WORDS[COMP_CWORD]} words="" kind=none operands=(none) place=0 at
    COMPREPLY=()
    if [ "$COMP_CWORD" = 1 ]; then
EOF
    echo "        words='$(awk '{ print $1 }' "$1/commands" | tr '\n' ' ')--help --version'"
    cat <<'EOF'
    else
        case ${COMP_WORDS[1]} in
EOF
    while read -r command _; do
        echo "        $command) words='$(words_of "$1" "$command")' operands=($(operands_of "$command")) ;;"
    done <"$1/commands"
    cat <<EOF
        esac
        for ((at = 2; at < COMP_CWORD; at++)); do
            case \${COMP_WORDS[at]} in
            $(options_with "$1" second)) ((at += 2)) ;;
            $(options_with "$1" folder) | $(options_with "$1" other)) ((at += 1)) ;;
            -*) ;;
            *) ((place += 1)) ;;
            esac
        done
        kind=\${operands[place < \${#operands[@]} ? place : -1]}
        case \${COMP_WORDS[COMP_CWORD - 1]} in
        $(options_with "$1" folder) | $(options_with "$1" other)) words="" kind=none ;;
        esac
        case "\${COMP_WORDS[1]} \${COMP_WORDS[COMP_CWORD - 1]}" in
        $(folders_with "$1")) kind=folders ;;
        esac
        case \${COMP_WORDS[COMP_CWORD - 2]} in
        $(options_with "$1" second)) words="" kind=none ;;
        esac
    fi
EOF
    cat <<'EOF'
    case $kind in
    files) mapfile -t COMPREPLY < <(compgen -f -- "$word") ;;
    folders) mapfile -t COMPREPLY < <(compgen -d -- "$word") ;;
    esac
    mapfile -t -O "${#COMPREPLY[@]}" COMPREPLY < <(compgen -W "$words" -- "$word")
}

complete -o filenames -F _mpwb mpwb
EOF
}

# a text in single quotes, as zsh and fish read it
quoted() { sed "s/'/'\\\\''/g; s/.*/'&'/" <<<"$1"; }

complete_in_zsh() {
    local command about
    cat <<'EOF'
#compdef mpwb
# completion of mpwb for zsh

_mpwb() {
    local -a commands
    commands=(
EOF
    while read -r command about; do echo "        $(quoted "$command:${about//:/\\:}")"; done <"$1/commands"
    cat <<'EOF'
    )
    if ((CURRENT == 2)); then
        _describe command commands
        _arguments '--help[Print help]' '--version[Print version]'
        return
    fi
    shift words
    ((CURRENT--))
    case $words[1] in
EOF
    while read -r command about; do
        echo "    $command) _arguments $(zsh_arguments "$1" "$command" | tr '\n' ' ');;"
    done <"$1/commands"
    cat <<'EOF'
    esac
}

_mpwb "$@"
EOF
}

zsh_arguments() {
    local option values text
    { options_in "$1/$2" && echo '--help - Print help'; } | sort -u -k 1,1 | while read -r option values text; do
        text=${text//[/\\[} && text=${text//]/\\]} && text=${text//:/\\:}
        # (an option may come more than once)
        quoted "*$option""[$text]$(zsh_values "$values")"
    done
    zsh_operands "$1" "$2"
}

zsh_operands() {
    local kinds place
    read -r -a kinds <<<"$(operands_of "$2")"
    if [ "${kinds[*]}" = none ]; then return; fi
    for ((place = 0; place < ${#kinds[@]}; place++)); do
        quoted "$(if ((place + 1 < ${#kinds[@]})); then echo $((place + 1)); else echo '*'; fi)$(zsh_kind "$1" "${kinds[place]}")"
    done
}

zsh_kind() {
    case $2 in
    files) echo ':file:_files' ;;
    folders) echo ':folder:_files -/' ;;
    words) echo ":word:($(tr '\n' ' ' <"$1/words"))" ;;
    commands) echo ":command:($(awk '{ print $1 }' "$1/commands" | tr '\n' ' '))" ;;
    none) echo ':word: ' ;; # (it is said that a word stands there)
    esac
}

# what is offered for the values of an option: folders for a folder, and else their names alone
zsh_values() {
    local value
    if [ "$1" = - ]; then return; fi
    for value in ${1//,/ }; do
        if value_is_folder "$value"; then printf ':%s:_files -/' "$value"; else printf ':%s: ' "$value"; fi
    done
}

complete_in_fish() {
    local command about option values text
    echo "# completion of mpwb for fish"
    tell_place_in_fish "$1"
    echo "complete -c mpwb -n __fish_use_subcommand -f -l help -d 'Print help'"
    echo "complete -c mpwb -n __fish_use_subcommand -f -l version -d 'Print version'"
    while read -r command about; do
        echo "complete -c mpwb -n __fish_use_subcommand -f -a $command -d $(quoted "$about")"
        { options_in "$1/$command" && echo '--help - Print help'; } | sort -u -k 1,1 | while read -r option values text; do
            fish_option "$command" "$option" "$values" "$text"
        done
        fish_operands "$1" "$command"
    done <"$1/commands"
}

# a function that tells how many operands stand before a word
tell_place_in_fish() {
    cat <<EOF
function __mpwb_place
    set -l place 0
    set -l values 0
    for word in (commandline -opc)[3..-1]
        if test \$values -gt 0
            set values (math \$values - 1)
            continue
        end
        switch \$word
            case $(options_with "$1" second | tr '|' ' ')
                set values 2
            case $(options_with "$1" folder | tr '|' ' ') $(options_with "$1" other | tr '|' ' ')
                set values 1
            case '-*'
            case '*'
                set place (math \$place + 1)
        end
    end
    echo \$place
end
EOF
}

fish_operands() {
    local kinds place holds
    read -r -a kinds <<<"$(operands_of "$2")"
    for ((place = 0; place < ${#kinds[@]}; place++)); do
        holds="__fish_seen_subcommand_from $2; and test (__mpwb_place) $(if ((place + 1 < ${#kinds[@]})); then echo -eq; else echo -ge; fi) $place"
        if [ "${kinds[place]}" != files ]; then echo "complete -c mpwb -n '$holds' -f -a $(quoted "$(fish_kind "$1" "${kinds[place]}")")"; fi
    done
}

fish_kind() {
    case $2 in
    folders) echo '(__fish_complete_directories)' ;;
    words) tr '\n' ' ' <"$1/words" ;;
    commands) awk '{ print $1 }' "$1/commands" | tr '\n' ' ' ;;
    none) ;;
    esac
}

# (fish knows of one value of an option: behind it nothing but the second one is looked for)
fish_option() {
    local takes of="__fish_seen_subcommand_from $1"
    case $3 in -) takes="" ;; FOLDER) takes="-x -a '(__fish_complete_directories)'" ;; *) takes=-x ;; esac
    echo "complete -c mpwb -n '$of' -l ${2#--} $takes -d $(quoted "$4")"
    if [[ $3 == *,* ]]; then echo "complete -c mpwb -n '$of; and string match -q -- $2 (commandline -opc)[-2]' -f"; fi
}
