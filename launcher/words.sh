# shellcheck shell=bash
# The words of a command line of the program.

takes_a_value() {
    case $1 in
    --help | --version | --ascii | --svg | --json | --hex | --brief | --share | --sync | --limit | --fit | --each | --deb | -- | --*=*) return 1 ;;
    --*) return 0 ;;
    *) return 1 ;;
    esac
}

# how many values an option takes
values_of() {
    case $1 in --causes) echo 2 ;; *) if takes_a_value "$1"; then echo 1; else echo 0; fi ;; esac
}

# how many words stand before FILE
words_before_file() {
    case $1 in why | path) echo 2 ;; waits) echo 1 ;; *) echo 0 ;; esac
}

# whether an option is among words
is_given() {
    local option=$1 word
    for word in "${@:2}"; do
        case $word in "$option" | "$option"=*) return 0 ;; --) return 1 ;; esac
    done
    return 1
}

# the value of an option, nothing where it isn't given
value_of() {
    local option=$1 before="" value="" word
    for word in "${@:2}"; do
        if [ "$word" = -- ]; then break; fi
        if [ "$before" = "$option" ]; then value=$word; fi
        if [[ $word == "$option"=* ]]; then value=${word#*=}; fi
        before=$word
    done
    printf '%s\n' "$value"
}

# FILE of a command that reads a netlist, nothing where it isn't given; behind -- no word is an option
file_of() {
    local word values=0 others options=yes
    others=$(words_before_file "$1")
    for word in "${@:2}"; do
        if [[ -n $options && $word == -* && $word != - ]]; then
            values=$(values_of "$word")
            if [ "$word" = -- ]; then options=""; fi
        elif [ "$values" -gt 0 ]; then
            values=$((values - 1))
        else
            if [ "$others" = 0 ]; then printf '%s\n' "$word"; fi
            others=$((others - 1))
        fi
    done
}
