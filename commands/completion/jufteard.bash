# Words for the keyboard in bash: options, the scanners of a config, and the values that a scanner takes. It dials nothing, asks the
# program for a second at most, and is silent on a fault. It serves the program whose name this file was installed under.

# What the program that is typed prints, where it does so in time.
_jufteard_ask() { timeout 1 "$program" "$@" < /dev/null 2> /dev/null; }

# Finds the config and the scanner among the words before the one that is typed.
_jufteard_look() {
    local at
    config='' device=''
    for ((at = 1; at < ${#before[@]}; at++)); do
        case ${before[at]} in
            --config) config=${before[at + 1]} ;;
            --config=*) config=${before[at]#*=} ;;
            -d | --device-name) device=${before[at + 1]} ;;
            --device-name=*) device=${before[at]#*=} ;;
        esac
    done
    config=${config/#\~\//$HOME/}
    [[ -f $config && -r $config ]] || config=''
}

# The lines of the scanner's options, of one of the config alone.
_jufteard_table() {
    [[ -n $config && $device != net:* ]] || return
    if [[ -n $device ]]; then _jufteard_ask --config "$config" -d "$device" -A; else _jufteard_ask --config "$config" -A; fi
}

_jufteard_values() {
    local takes
    takes=$(_jufteard_table | sed -n "s/^    --$1 \([^ ]*\) .*/\1/p")
    case $takes in
        *..* | '' | '<'*) ;;
        *) compgen -W "$(tr '|' ' ' <<< "${takes%dpi}" | sed 's/bit//')" -- "$cur" ;;
    esac
}

_jufteard_scanimage() {
    case $prev in
        --config | -o | --output-file | --password-file) compgen -f -- "$cur" ;;
        -d | --device-name) [[ -n $config ]] && compgen -W "$(_jufteard_ask --config "$config" -L | sed "s/^device \`\(.*\)' is a .*/\1/")" -- "$cur" ;;
        --net) compgen -W localhost -- "$cur" ;;
        --port | --user | --batch-count | -l | -t | -x | -y) ;;
        --list-devices | --all-options | --dont-scan | --batch | --dial-first) _jufteard_options ;;
        --*) _jufteard_values "${prev#--}" ;;
        *) _jufteard_options ;;
    esac
}

_jufteard_options() {
    compgen -W "--config --device-name --output-file --batch --batch-count --list-devices --all-options --dont-scan --net --port \
        --dial-first --user --password-file -d -o -b -L -A -n -l -t -x -y $(_jufteard_table | sed -n 's/^    \(--[^ ]*\) .*/\1/p')" -- "$cur"
}

_jufteard_saned() {
    case $prev in
        --config | --users) compgen -f -- "$cur" ;;
        --byte-order) compgen -W 'little big' -- "$cur" ;;
        --seed | --port | --data-ports | --sessions | --idle-turns) ;;
        *) compgen -W '--config --users --seed --port --data-ports --byte-order --pad-strings --sessions --idle-turns --help --version' -- "$cur" ;;
    esac
}

# For jufteard-run: its own words, then any command.
_jufteard_run() {
    if [[ ${#before[@]} -eq 1 ]]; then
        compgen -W --here -- "$cur"
    elif [[ ${#before[@]} -gt 2 || ${before[1]} != --here ]]; then
        compgen -c -- "$cur"
    fi
    compgen -f -- "$cur"
}

_jufteard_why() {
    local name
    for name in $(compgen -W 'scanimage saned jufteard-scanimage jufteard-saned' -- "$cur"); do type "$name" > /dev/null 2>&1 && echo "$name"; done
}

_jufteard() {
    local line=${COMP_LINE:0:COMP_POINT} before cur='' prev program config device
    # bash parts words at = and :, which stand in ours
    read -r -a before <<< "$line"
    if [[ $line != *[[:space:]] ]]; then
        cur=${before[${#before[@]} - 1]}
        unset "before[${#before[@]} - 1]"
    fi
    prev=${before[${#before[@]} - 1]} program=${before[0]/#\~\//$HOME/}
    if [[ $cur == --*=* ]]; then prev=${cur%%=*} cur=${cur#*=}; fi
    case ${program##*/} in
        *jufteard-why) [[ ${#before[@]} -gt 1 ]] && program=${before[1]} ;;
    esac
    _jufteard_look
    case ${program##*/} in
        *jufteard-run) mapfile -t COMPREPLY < <(_jufteard_run) ;;
        *jufteard-why) mapfile -t COMPREPLY < <(_jufteard_why) ;;
        *scanimage) mapfile -t COMPREPLY < <(_jufteard_scanimage) ;;
        *saned) mapfile -t COMPREPLY < <(_jufteard_saned) ;;
        *) COMPREPLY=() ;;
    esac
    # of a word with colons bash puts what stands behind the last one
    if [[ $cur == *:* ]]; then COMPREPLY=("${COMPREPLY[@]#"${cur%"${cur##*:}"}"}"); fi
}

complete -o filenames -o bashdefault -F _jufteard "${BASH_SOURCE[0]##*/}"
