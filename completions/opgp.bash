# Completion of opgp for bash.
_opgp() {
    local word=${COMP_WORDS[COMP_CWORD]} before=${COMP_WORDS[COMP_CWORD - 1]} words
    local limits="--mode --outside --malformed --line --body --cert --input --pieces --progress --quiet --hints --spool --help"
    # Bash takes --out=binary for three words.
    if [ "$word" = = ]; then
        word=
    elif [ "$before" = = ]; then
        before=${COMP_WORDS[COMP_CWORD - 2]}
    fi
    if [ "$COMP_CWORD" = 1 ]; then
        words="show list check state octets write normalise split join signatures digest canonical cleartext diff help --help"
    else
        case $before in
            --mode) words="auto armor binary" ;;
            --outside) words="skip refuse" ;;
            --malformed) words="refuse keep" ;;
            --out) words="armor binary" ;;
            --of)
                case ${COMP_WORDS[1]} in
                    cleartext) words="document hashed signatures" ;;
                    *) words="ring literal" ;;
                esac
                ;;
            --policy) words="usual any" ;;
            --hints) words="auto always never" ;;
            --row | --nth | --key | --at | --user-id | --octets | --line | --body | --cert | --input | --pieces)
                compopt +o default # a number, a key or a time, and no file
                return
                ;;
            --signatures | --verdicts | --keys | --old)
                compopt -o default
                return
                ;;
            --spool)
                compopt -o dirnames
                return
                ;;
            *)
                case ${COMP_WORDS[1]} in
                    show | list) words="--values $limits" ;;
                    check) words="--fingerprints --places $limits" ;;
                    state) words="--at --policy --verdicts --values $limits" ;;
                    octets) words="--row --all --explain --of $limits" ;;
                    write) words="--out --own-signatures --no-attributes --user-id --bound --verdicts --newest --at $limits" ;;
                    normalise) words="--out $limits" ;;
                    split) words="--out --nth --key --keys --except $limits" ;;
                    join) words="--out --merge $limits" ;;
                    signatures | canonical) words=$limits ;;
                    cleartext) words="--of $limits" ;;
                    diff) words="--old $limits" ;;
                    digest) words="--signatures --octets --salt $limits" ;;
                    help) words="show list check state octets write normalise split join signatures digest canonical cleartext diff help" ;;
                    *) return ;;
                esac
                ;;
        esac
    fi
    mapfile -t COMPREPLY < <(compgen -W "$words" -- "$word")
}
complete -o default -F _opgp opgp
