# Completions for bash, made by tests/docs.py options from the usage texts of the programs.

_omf() {
    local task=${COMP_WORDS[1]} before=${COMP_WORDS[COMP_CWORD-1]} current=${COMP_WORDS[COMP_CWORD]} words=
    if [ "$COMP_CWORD" -eq 1 ]; then COMPREPLY=($(compgen -W "list check reloc canon" -- "$current")); return; fi
    case "$task $before" in
    esac
    [[ $current == -* ]] || return
    case "$task" in
        'list') words="--refuse-vendor-comments";;
        'check') words="--refuse-vendor-comments";;
        'reloc') words="--refuse-vendor-comments";;
        'canon') words="--refuse-vendor-comments";;
    esac
    COMPREPLY=($(compgen -W "$words" -- "$current"))
}
complete -o default -o bashdefault -F _omf omf

_omf_dump() {
    local task=${COMP_WORDS[1]} before=${COMP_WORDS[COMP_CWORD-1]} current=${COMP_WORDS[COMP_CWORD]} words=
    case "$before" in
        '--data') return;;
    esac
    [[ $current == -* ]] || return
    case '' in
        '') words="--json --data --refuse-vendor-comments --verdict --names --csv --defined --undefined --help --version";;
    esac
    COMPREPLY=($(compgen -W "$words" -- "$current"))
}
complete -o default -o bashdefault -F _omf_dump omf-dump

_omf_find() {
    local task=${COMP_WORDS[1]} before=${COMP_WORDS[COMP_CWORD-1]} current=${COMP_WORDS[COMP_CWORD]} words=
    case "$before" in
        '--near') return;;
        '--link') return;;
        '--least') return;;
        '--base') return;;
        '--frame') return;;
        '--symbols') COMPREPLY=($(compgen -W "ghidra ida r2 nm" -- "$current")); return;;
        '--load') return;;
    esac
    [[ $current == -* ]] || return
    case '' in
        '') words="--json --possible --near --link --least --base --frame --refuse-vendor-comments --symbols --load --help --version";;
    esac
    COMPREPLY=($(compgen -W "$words" -- "$current"))
}
complete -o default -o bashdefault -F _omf_find omf-find

_omf_lib() {
    local task=${COMP_WORDS[1]} before=${COMP_WORDS[COMP_CWORD-1]} current=${COMP_WORDS[COMP_CWORD]} words=
    if [ "$COMP_CWORD" -eq 1 ]; then COMPREPLY=($(compgen -W "list check find get make canon --help --version" -- "$current")); return; fi
    case "$task $before" in
        'get -d') return;;
        'make -o') return;;
        'canon -o') return;;
    esac
    [[ $current == -* ]] || return
    case "$task" in
        'list') words="--refuse-vendor-comments";;
        'check') words="--refuse-vendor-comments";;
        'find') words="--ignore-case";;
        'get') words="-d --numbered";;
        'make') words="--refuse-vendor-comments --ignore-case -o";;
        'canon') words="--refuse-vendor-comments -o";;
    esac
    COMPREPLY=($(compgen -W "$words" -- "$current"))
}
complete -o default -o bashdefault -F _omf_lib omf-lib

_omf_link() {
    local task=${COMP_WORDS[1]} before=${COMP_WORDS[COMP_CWORD-1]} current=${COMP_WORDS[COMP_CWORD]} words=
    if [ "$COMP_CWORD" -eq 1 ]; then COMPREPLY=($(compgen -W "exe com image map bin hex srec draft join lower --help --version" -- "$current")); return; fi
    case "$task $before" in
        'exe -o') return;;
        'exe --map') return;;
        'exe --symbols') return;;
        'exe --stack') return;;
        'exe --order') return;;
        'exe --max-alloc') return;;
        'exe -L') return;;
        'exe --library-path') return;;
        'exe --no-default-library') return;;
        'exe --allow') COMPREPLY=($(compgen -W "group mixed near twice" -- "$current")); return;;
        'com -o') return;;
        'com --map') return;;
        'com --symbols') return;;
        'com --stack') return;;
        'com --order') return;;
        'com -L') return;;
        'com --library-path') return;;
        'com --no-default-library') return;;
        'com --allow') COMPREPLY=($(compgen -W "group mixed near twice" -- "$current")); return;;
        'image --allow') COMPREPLY=($(compgen -W "overlap align group frame near twice" -- "$current")); return;;
        'image -t') return;;
        'image -o') return;;
        'map -t') return;;
        'map -o') return;;
        'bin --base') return;;
        'bin --size') return;;
        'bin --fill') return;;
        'bin --allow') COMPREPLY=($(compgen -W "overlap align group frame near twice" -- "$current")); return;;
        'bin -t') return;;
        'bin -o') return;;
        'hex --addresses') COMPREPLY=($(compgen -W "linear segment" -- "$current")); return;;
        'hex --allow') COMPREPLY=($(compgen -W "overlap align group frame near twice" -- "$current")); return;;
        'hex -t') return;;
        'hex -o') return;;
        'srec --addresses') COMPREPLY=($(compgen -W "16 24 32" -- "$current")); return;;
        'srec --allow') COMPREPLY=($(compgen -W "overlap align group frame near twice" -- "$current")); return;;
        'srec -t') return;;
        'srec -o') return;;
        'draft --base') return;;
        'draft --flat') return;;
        'draft -o') return;;
        'join -o') return;;
        'join --order') return;;
        'join -L') return;;
        'join --library-path') return;;
        'join --no-default-library') return;;
        'lower -o') return;;
    esac
    [[ $current == -* ]] || return
    case "$task" in
        'exe') words="-o --map --symbols --stack --order --max-alloc -L --library-path --no-default-libraries --no-default-library --allow --ignore-case --keep-debug --eliminate";;
        'com') words="-o --map --symbols --stack --order -L --library-path --no-default-libraries --no-default-library --allow --ignore-case --keep-debug --eliminate";;
        'image') words="--allow --ignore-case -t -o";;
        'map') words="--ignore-case -t -o";;
        'bin') words="--base --size --fill --allow --ignore-case -t -o";;
        'hex') words="--addresses --allow --ignore-case -t -o";;
        'srec') words="--addresses --allow --ignore-case -t -o";;
        'draft') words="--base --real --flat --ignore-case -o";;
        'join') words="-o --order -L --library-path --no-default-libraries --no-default-library --ignore-case --keep-debug";;
        'lower') words="-o";;
    esac
    COMPREPLY=($(compgen -W "$words" -- "$current"))
}
complete -o default -o bashdefault -F _omf_link omf-link

_omf_place() {
    local task=${COMP_WORDS[1]} before=${COMP_WORDS[COMP_CWORD-1]} current=${COMP_WORDS[COMP_CWORD]} words=
    case "$before" in
        '--base') return;;
        '--flat') return;;
    esac
    [[ $current == -* ]] || return
    case '' in
        '') words="--base --real --flat --help --version";;
    esac
    COMPREPLY=($(compgen -W "$words" -- "$current"))
}
complete -o default -o bashdefault -F _omf_place omf-place
