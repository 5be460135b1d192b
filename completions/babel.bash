# Made by tools/man-page from the help of the commands. Change that, not this file.
_babel() {
    local word=${COMP_WORDS[COMP_CWORD]} last=${COMP_WORDS[COMP_CWORD-1]}
    COMPREPLY=()
    if [ "$COMP_CWORD" -eq 1 ]; then
        COMPREPLY=($(compgen -W "show check replay explain net simulate speak run ask topology -h --help -V --version" -- "$word"))
        return
    fi
    case "${COMP_WORDS[1]}" in
    show)
        case "$last" in
        --source) compopt +o default 2>/dev/null; return ;;
        esac
        if [[ $word == -* ]]; then COMPREPLY=($(compgen -W "--source --stdin --header --keep-going --short --json --details -h --help" -- "$word")); return; fi
        compopt +o default 2>/dev/null
        ;;
    check)
        case "$last" in
        --restore) COMPREPLY=(); return ;;
        esac
        if [[ $word == -* ]]; then COMPREPLY=($(compgen -W "--restore --json --details -h --help" -- "$word")); return; fi
        COMPREPLY=()
        ;;
    replay)
        case "$last" in
        --prefix) compopt +o default 2>/dev/null; return ;;
        --until) compopt +o default 2>/dev/null; return ;;
        --only) COMPREPLY=($(compgen -W "select out table refused ignored state ack-request ack hello ihu update retract retract-all route-request dump-request seqno-request V1 V2 V3 V4 V5 V6 V7 V8 V9 I1 I2 I3 I4 I5 I6 I7 I8 I9 I10 I11 I12 I13 S1 S2 S3 E1 E2 P1 P2 P3 P4 P5 P6" -- "$word")); return ;;
        esac
        if [[ $word == -* ]]; then COMPREPLY=($(compgen -W "--prefix --until --only --short --json --details -h --help" -- "$word")); return; fi
        COMPREPLY=()
        ;;
    explain)
        case "$last" in
        --until) compopt +o default 2>/dev/null; return ;;
        esac
        if [[ $word == -* ]]; then COMPREPLY=($(compgen -W "--until --short --json --details -h --help" -- "$word")); return; fi
        COMPREPLY=()
        ;;
    net)
        case "$last" in
        esac
        if [[ $word == -* ]]; then COMPREPLY=($(compgen -W "--events --json --details -h --help" -- "$word")); return; fi
        COMPREPLY=()
        ;;
    simulate)
        case "$last" in
        --seed) compopt +o default 2>/dev/null; return ;;
        --seconds) compopt +o default 2>/dev/null; return ;;
        --repeated) compopt +o default 2>/dev/null; return ;;
        --late) compopt +o default 2>/dev/null; return ;;
        --memory) compopt +o default 2>/dev/null; return ;;
        --prefix) compopt +o default 2>/dev/null; return ;;
        --scenario) COMPREPLY=(); return ;;
        --svg) COMPREPLY=(); return ;;
        --dot) COMPREPLY=(); return ;;
        --at) compopt +o default 2>/dev/null; return ;;
        esac
        if [[ $word == -* ]]; then COMPREPLY=($(compgen -W "--seed --seconds --repeated --late --memory --prefix --scenario --json --details --svg --dot --at -h --help" -- "$word")); return; fi
        COMPREPLY=()
        ;;
    speak)
        case "$last" in
        --turns) compopt +o default 2>/dev/null; return ;;
        --port) compopt +o default 2>/dev/null; return ;;
        --restore) COMPREPLY=(); return ;;
        --save) COMPREPLY=(); return ;;
        --keep) COMPREPLY=(); return ;;
        --control) COMPREPLY=(); return ;;
        esac
        if [[ $word == -* ]]; then COMPREPLY=($(compgen -W "--turns --port --routes --restore --save --keep --new --control --details -h --help" -- "$word")); return; fi
        COMPREPLY=()
        ;;
    run)
        case "$last" in
        --router-id) compopt +o default 2>/dev/null; return ;;
        --announce) compopt +o default 2>/dev/null; return ;;
        --ipv4) compopt +o default 2>/dev/null; return ;;
        --cost) compopt +o default 2>/dev/null; return ;;
        --hello) compopt +o default 2>/dev/null; return ;;
        --config) COMPREPLY=(); return ;;
        --port) compopt +o default 2>/dev/null; return ;;
        --turns) compopt +o default 2>/dev/null; return ;;
        --keep) COMPREPLY=(); return ;;
        --control) COMPREPLY=(); return ;;
        esac
        if [[ $word == -* ]]; then COMPREPLY=($(compgen -W "--router-id --announce --ipv4 --cost --hello --config --port --turns --keep --new --control --routes --ip --details -h --help" -- "$word")); return; fi
        COMPREPLY=($(compgen -W "$(ls /sys/class/net)" -- "$word"))
        ;;
    ask)
        case "$last" in
        --control) COMPREPLY=(); return ;;
        esac
        if [[ $word == -* ]]; then COMPREPLY=($(compgen -W "--control --json --details -h --help" -- "$word")); return; fi
        case " ${COMP_WORDS[*]:2:COMP_CWORD-2} " in *" neighbours "*|*" routes "*|*" why "*|*" log "*|*" counts "*) ;; *) COMPREPLY=($(compgen -W "neighbours routes why log counts" -- "$word")); return ;; esac
        compopt +o default 2>/dev/null
        ;;
    topology)
        case "$last" in
        --nodes) compopt +o default 2>/dev/null; return ;;
        --seed) compopt +o default 2>/dev/null; return ;;
        esac
        if [[ $word == -* ]]; then COMPREPLY=($(compgen -W "--nodes --seed --details -h --help" -- "$word")); return; fi
        case " ${COMP_WORDS[*]:2:COMP_CWORD-2} " in *" ring "*|*" line "*|*" grid "*|*" star "*|*" random "*) ;; *) COMPREPLY=($(compgen -W "ring line grid star random" -- "$word")); return ;; esac
        compopt +o default 2>/dev/null
        ;;
    esac
}
complete -o default -F _babel babel
