# What bash completes the words of fed by. completions/make wrote it from completions/words.
_fed() {
    local word=${COMP_WORDS[COMP_CWORD]} before=${COMP_WORDS[COMP_CWORD - 1]} act= at offered=
    COMPREPLY=()
    case $before in
        *[\<\>]*) before=--files ;;
    esac
    case $COMP_CWORD:$before in
        1:*) offered='verify keygen issue rotate public check check-reply show check-config authority resolver resolve register rehearse help --help --version' ;;
        2:help) offered='verify keygen issue rotate public check check-reply show check-config authority resolver resolve register rehearse help' ;;
        *:--act) offered='add retire revoke' ;;
        *:--alg) offered='128s 128f' ;;
        *:--claims) offered='yes' ;;
        *:--heed) offered='yes' ;;
        *:--reason) offered='unspecified compromised superseded' ;;
        *:--stream) offered='yes' ;;
        *:--strict) offered='yes' ;;
        *:--typ) offered='entity-statement+jwt trust-mark+jwt trust-mark-delegation+jwt' ;;
        *:--anchor-keys | *:--config | *:--keys | *:--ring | *:--files)
            compopt -o filenames 2>/dev/null
            mapfile -t COMPREPLY < <(compgen -f -- "$word")
            return
            ;;
        *:--anchor | *:--at | *:--connections | *:--exp | *:--kid | *:--params | *:--port | *:--sub | *:--workers) return ;;
        *)
            for ((at = 2; at < COMP_CWORD; at++)); do
                [[ ${COMP_WORDS[at]} == --act ]] && act=${COMP_WORDS[at + 1]}
            done
            case ${COMP_WORDS[1]}:$act in
                authority:) offered='--config --port --connections --stream' ;;
                check:) offered='--anchor --keys --at' ;;
                check-config:) offered='--config --at --strict' ;;
                check-reply:) offered='--keys --anchor --anchor-keys --at' ;;
                issue:) offered='--ring --typ --workers' ;;
                keygen:) offered='--ring --at --exp --alg' ;;
                public:) offered='--ring --kid' ;;
                register:) offered='--config --anchor' ;;
                rehearse:) offered='--params' ;;
                resolve:) offered='--config --sub --anchor --heed' ;;
                resolver:) offered='--config --port --connections' ;;
                rotate:) offered='--ring --act --at --exp --alg --kid --reason' ;;
                rotate:add) offered='--ring --act --at --exp --alg' ;;
                rotate:retire) offered='--ring --act --kid' ;;
                rotate:revoke) offered='--ring --act --kid --at --reason' ;;
                show:) offered='--claims' ;;
            esac
            for ((at = 2; at < COMP_CWORD; at++)); do
                [[ ${COMP_WORDS[at]} == --* ]] && offered=" $offered " && offered=${offered/ ${COMP_WORDS[at]} / }
            done
            ;;
    esac
    mapfile -t COMPREPLY < <(compgen -W "$offered" -- "$word")
}
complete -F _fed fed
