# Completes the commands, options and files of acvp_server in bash.
# Made by checks/lib/manual from acvp_server --help: change that.
# shellcheck shell=bash

_acvp_server_words() { # WORD CHOICES: those of the choices that begin with the word
    mapfile -t COMPREPLY < <(compgen -W "$2" -- "$1")
}

_acvp_server_files() { # WORD: the files whose names begin with the word, without its quotes
    local word=${1#[\"\']}
    word=${word//\\/}
    # bash then puts a / behind folders, and quotes spaces
    compopt -o filenames 2>/dev/null
    mapfile -t COMPREPLY < <(compgen -f -- "$word")
}

_acvp_server() {
    local word=${COMP_WORDS[COMP_CWORD]} before=${COMP_WORDS[COMP_CWORD - 1]} options="" left="" option
    local IFS=$' \t\n'
    local commands="init migrate keys secret account-add account-disable request-approve request-reject accounts
        requests request-show certificate check serve backup restore script help"
    COMPREPLY=()
    if [ "$COMP_CWORD" -eq 1 ]; then
        _acvp_server_words "$word" "$commands --help --version"
        return
    fi
    # bash takes the = of --db=FILE for a word
    if [ "$word" = "=" ]; then
        word=""
    elif [ "$before" = "=" ]; then
        before=${COMP_WORDS[COMP_CWORD - 2]}
    fi
    case $before in
        --db | --new | --add-token | --retire | --add-seed | --to | --secret | --keys | --from)
            _acvp_server_files "$word"
            return
            ;;
        --grades)
            _acvp_server_words "$word" "yes no"
            return
            ;;
        --log)
            if [[ $word != -* ]]; then
                _acvp_server_words "$word" "words json"
                return
            fi
            ;;
        --account | --request | --port | --count | --patience)
            return
            ;;
    esac
    case ${COMP_WORDS[1]} in
        init) options="--db --verbose --help" ;;
        migrate) options="--db --yes --verbose --help" ;;
        keys) options="--new --add-token --retire --add-seed --to --verbose --help" ;;
        secret) options="--new --verbose --help" ;;
        account-add) options="--db --account --secret --verbose --help" ;;
        account-disable) options="--db --account --yes --verbose --help" ;;
        request-approve) options="--db --request --yes --verbose --help" ;;
        request-reject) options="--db --request --yes --verbose --help" ;;
        accounts) options="--db --json --verbose --help" ;;
        requests) options="--db --all --json --verbose --help" ;;
        request-show) options="--db --keys --request --json --verbose --help" ;;
        certificate) options="--db --keys --request --html --verbose --help" ;;
        check) options="--db --keys --grades --json --verbose --help" ;;
        serve) options="--db --keys --port --count --patience --log --verbose --help" ;;
        backup) options="--db --to --verbose --help" ;;
        restore) options="--from --db --verbose --help" ;;
        script) options="--keys --verbose --help" ;;
        help) [ "$COMP_CWORD" -gt 2 ] || options=$commands ;;
    esac
    # an option may be given once
    for option in $options; do
        [[ " ${COMP_WORDS[*]:2:COMP_CWORD - 2} " == *" $option "* ]] || left="$left $option"
    done
    _acvp_server_words "$word" "$left"
}

complete -F _acvp_server acvp_server
