# Completion of fa_audit in bash. .ci/words.py holds its commands and options beside those of the program.

_fa_audit()
{
    local word=${COMP_WORDS[COMP_CWORD]} before=${COMP_WORDS[COMP_CWORD - 1]} command=${COMP_WORDS[1]} words
    COMPREPLY=()
    case $before in
        --capture | --tree | --order | --order-out)
            compopt -o filenames 2> /dev/null
            mapfile -t COMPREPLY < <(compgen -f -- "$word")
            return
            ;;
        --at | --steps | --from | --to | --node | --name | --around | --messages)
            return
            ;;
        --operation)
            words='LOOKUP FORGET GETATTR SETATTR READLINK SYMLINK MKNOD MKDIR UNLINK RMDIR RENAME LINK OPEN READ WRITE STATFS RELEASE FSYNC
                SETXATTR GETXATTR LISTXATTR REMOVEXATTR FLUSH INIT OPENDIR READDIR RELEASEDIR FSYNCDIR GETLK SETLK SETLKW ACCESS CREATE
                INTERRUPT BMAP DESTROY IOCTL POLL BATCH_FORGET FALLOCATE READDIRPLUS RENAME2 LSEEK COPY_FILE_RANGE'
            mapfile -t COMPREPLY < <(compgen -W "$words" -- "$word")
            return
            ;;
    esac
    local commands='check propose search judge cut front migrate watch show explain picture report help'
    if [ "$COMP_CWORD" -eq 1 ]; then
        words="$commands --help --version"
    else
        case $command in
            check) words='--capture --tree --order --help' ;;
            propose) words='--capture --tree --help' ;;
            search) words='--capture --tree --steps --progress --help' ;;
            judge) words='--capture --tree --steps --progress --explain --order-out --help' ;;
            cut) words='--capture --order --at --help' ;;
            front) words='--capture --at --help' ;;
            migrate | watch) words='--capture --help' ;;
            show) words='--capture --from --to --node --name --operation --unanswered --whole --summary --help' ;;
            explain) words='--capture --tree --order --help' ;;
            picture) words='--capture --order --tree --around --messages --help' ;;
            report) words='--capture --tree --order --steps --progress --around --messages --help' ;;
            help) words="$commands --help" ;;
        esac
    fi
    mapfile -t COMPREPLY < <(compgen -W "$words" -- "$word")
}

complete -F _fa_audit fa_audit
