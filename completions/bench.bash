# Written by tools/completions: completes the words after `bench` and the tools in bash.
_bench_values() {
    case $1 in
        --memory) echo '64 128 192 256 320' ;;
        --page) echo '4 5 6 7 8 9 A B C D E F' ;;
        --bank) echo '1 2 3 4' ;;
    esac
}

_bench_options() {
    case $1 in
        run) echo '--memory' ;;
        asm) echo '--origin' ;;
        dis) echo '--origin' ;;
        prove) echo '--all --check' ;;
        bench-calculator) echo '--port --memory --lesson --lessons --no-browser --help' ;;
        bench-catalogue) echo '--format --workers --out --shard --join --help' ;;
        bench-check) echo '--memory --workers --shard --join --help' ;;
        bench-debug) echo '--memory --help' ;;
        bench-export) echo '--page --bank --title --end --entry --label --numbers --symbols --for --help' ;;
        bench-help) echo '--nearest --refused --help' ;;
        bench-import) echo '--page --bank --rw --swap --size --memory --as --decimal --quiet --out --module --accept --source --only --all --into --help' ;;
        bench-keyboard) echo '--help' ;;
        bench-keys) echo '--help' ;;
        bench-labels) echo '--page --bank --help' ;;
        bench-lint) echo '--page --bank --rules --help' ;;
        bench-list) echo '--page --bank --help' ;;
        bench-module) echo '--out --images --junk --no-junk --trace --junit --table --call --write --values --help' ;;
        bench-play) echo '--size --memory --steps --skip --tone --workers --script --shard --join --help' ;;
        bench-prove-module) echo '--page --try --keep --libraries --verbose --help' ;;
        bench-registers) echo '--memory --all --deck --page --help' ;;
        bench-trace) echo '--memory --labels --function --explain --watch --help' ;;
        bench-where) echo '--memory --brief --labels --help' ;;
    esac
}

_bench() {
    local word=${COMP_WORDS[COMP_CWORD]} before=${COMP_WORDS[COMP_CWORD-1]} name=${COMP_WORDS[0]##*/} words=
    [[ ${COMP_WORDS[0]} != *tools/* ]] || name=bench-$name
    words=$(_bench_values "$before")
    if [[ -n $words ]]; then
        :
    elif [[ $name == bench && $COMP_CWORD == 1 ]]; then
        words='run asm dis prove help --help --version'
    elif [[ $name == bench && ${COMP_WORDS[1]} == help ]]; then
        [[ $COMP_CWORD != 2 ]] || words='run asm dis words image unplug load program size reset call key step trace break unbreak list show'
        case $COMP_CWORD$before in
            3break) words='w l p' ;;
            3unbreak) words='w l p' ;;
            3show) words='cpu ram stack flags alpha display pos lines image functions' ;;
        esac
    elif [[ $word == -* || ${COMP_WORDS[1]} == prove ]]; then
        [[ $name == bench ]] && words=$(_bench_options "${COMP_WORDS[1]}") || words=$(_bench_options "$name")
    elif [[ $name == bench-keys || $name == bench-play && $COMP_CWORD -ge 2 ]]; then
        words='ON USER PRGM ALPHA SIGMA+ 1/X SQRT LOG LN X<>Y RDN SIN COS TAN SHIFT XEQ STO RCL SST ENTER CHS EEX BACK - 7 8 9 + 4 5 6 * 1 2 3 / 0 . R/S'
    fi
    local IFS=$' \t\n'
    mapfile -t COMPREPLY < <(compgen -W "$words" -- "$word")
    [[ -n $words ]] || mapfile -t COMPREPLY < <(compgen -f -- "$word")
}

complete -o filenames -F _bench bench bench-calculator tools/calculator bench-catalogue tools/catalogue bench-check tools/check bench-debug tools/debug bench-export tools/export bench-help tools/help bench-import tools/import bench-keyboard tools/keyboard bench-keys tools/keys bench-labels tools/labels bench-lint tools/lint bench-list tools/list bench-module tools/module bench-play tools/play bench-prove-module tools/prove-module bench-registers tools/registers bench-trace tools/trace bench-where tools/where
