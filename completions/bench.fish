# Written by tools/completions: completes the words after `bench` and the tools in fish.
function __bench_words
    count (commandline -opc)
end
complete -c bench -n '__fish_use_subcommand' -f -a 'run asm dis prove help'
complete -c bench -n '__fish_seen_subcommand_from help prove' -f
complete -c bench -n '__fish_seen_subcommand_from help; and test (__bench_words) = 2' -f -a 'run asm dis words image unplug load program size reset call key step trace break unbreak list show'
complete -c bench -n '__fish_seen_subcommand_from help; and test (__bench_words) = 3; and contains break (commandline -opc)' -f \
    -a 'w l p'
complete -c bench -n '__fish_seen_subcommand_from help; and test (__bench_words) = 3; and contains unbreak (commandline -opc)' -f \
    -a 'w l p'
complete -c bench -n '__fish_seen_subcommand_from help; and test (__bench_words) = 3; and contains show (commandline -opc)' -f \
    -a 'cpu ram stack flags alpha display pos lines image functions'
complete -c bench -n '__fish_seen_subcommand_from run' -l memory -x -a '64 128 192 256 320'
complete -c bench -n '__fish_seen_subcommand_from asm' -l origin
complete -c bench -n '__fish_seen_subcommand_from dis' -l origin
complete -c bench -n '__fish_seen_subcommand_from prove' -l all
complete -c bench -n '__fish_seen_subcommand_from prove' -l check
complete -c bench-calculator -l port
complete -c bench-calculator -l memory -x -a '64 128 192 256 320'
complete -c bench-calculator -l lesson
complete -c bench-calculator -l lessons
complete -c bench-calculator -l no-browser
complete -c bench-calculator -l help
complete -c bench-catalogue -l format
complete -c bench-catalogue -l workers
complete -c bench-catalogue -l out
complete -c bench-catalogue -l shard
complete -c bench-catalogue -l join
complete -c bench-catalogue -l help
complete -c bench-check -l memory -x -a '64 128 192 256 320'
complete -c bench-check -l workers
complete -c bench-check -l shard
complete -c bench-check -l join
complete -c bench-check -l help
complete -c bench-debug -l memory -x -a '64 128 192 256 320'
complete -c bench-debug -l help
complete -c bench-export -l page -x -a '4 5 6 7 8 9 A B C D E F'
complete -c bench-export -l bank -x -a '1 2 3 4'
complete -c bench-export -l title
complete -c bench-export -l end
complete -c bench-export -l entry
complete -c bench-export -l label
complete -c bench-export -l numbers
complete -c bench-export -l symbols
complete -c bench-export -l for
complete -c bench-export -l help
complete -c bench-help -l nearest
complete -c bench-help -l refused
complete -c bench-help -l help
complete -c bench-import -l page -x -a '4 5 6 7 8 9 A B C D E F'
complete -c bench-import -l bank -x -a '1 2 3 4'
complete -c bench-import -l rw
complete -c bench-import -l swap
complete -c bench-import -l size
complete -c bench-import -l memory -x -a '64 128 192 256 320'
complete -c bench-import -l as
complete -c bench-import -l decimal
complete -c bench-import -l quiet
complete -c bench-import -l out
complete -c bench-import -l module
complete -c bench-import -l accept
complete -c bench-import -l source
complete -c bench-import -l only
complete -c bench-import -l all
complete -c bench-import -l into
complete -c bench-import -l help
complete -c bench-keyboard -l help
complete -c bench-keys -l help
complete -c bench-labels -l page -x -a '4 5 6 7 8 9 A B C D E F'
complete -c bench-labels -l bank -x -a '1 2 3 4'
complete -c bench-labels -l help
complete -c bench-lint -l page -x -a '4 5 6 7 8 9 A B C D E F'
complete -c bench-lint -l bank -x -a '1 2 3 4'
complete -c bench-lint -l rules
complete -c bench-lint -l help
complete -c bench-list -l page -x -a '4 5 6 7 8 9 A B C D E F'
complete -c bench-list -l bank -x -a '1 2 3 4'
complete -c bench-list -l help
complete -c bench-module -l out
complete -c bench-module -l images
complete -c bench-module -l junk
complete -c bench-module -l no-junk
complete -c bench-module -l trace
complete -c bench-module -l junit
complete -c bench-module -l table
complete -c bench-module -l call
complete -c bench-module -l write
complete -c bench-module -l values
complete -c bench-module -l help
complete -c bench-play -l size
complete -c bench-play -l memory -x -a '64 128 192 256 320'
complete -c bench-play -l steps
complete -c bench-play -l skip
complete -c bench-play -l tone
complete -c bench-play -l workers
complete -c bench-play -l script
complete -c bench-play -l shard
complete -c bench-play -l join
complete -c bench-play -l help
complete -c bench-prove-module -l page -x -a '4 5 6 7 8 9 A B C D E F'
complete -c bench-prove-module -l try
complete -c bench-prove-module -l keep
complete -c bench-prove-module -l libraries
complete -c bench-prove-module -l verbose
complete -c bench-prove-module -l help
complete -c bench-registers -l memory -x -a '64 128 192 256 320'
complete -c bench-registers -l all
complete -c bench-registers -l deck
complete -c bench-registers -l page -x -a '4 5 6 7 8 9 A B C D E F'
complete -c bench-registers -l help
complete -c bench-trace -l memory -x -a '64 128 192 256 320'
complete -c bench-trace -l labels
complete -c bench-trace -l function
complete -c bench-trace -l explain
complete -c bench-trace -l watch
complete -c bench-trace -l help
complete -c bench-where -l memory -x -a '64 128 192 256 320'
complete -c bench-where -l brief
complete -c bench-where -l labels
complete -c bench-where -l help
complete -c bench -l help
complete -c bench -l version
complete -c bench-keys -f -a "ON USER PRGM ALPHA 'SIGMA+' '1/X' SQRT LOG LN 'X<>Y' RDN SIN COS TAN SHIFT XEQ STO RCL SST ENTER CHS EEX BACK '-' 7 8 9 '+' 4 5 6 '*' 1 2 3 '/' 0 '.' 'R/S'"
complete -c bench-play -n 'test (__bench_words) -gt 1' -f -a "ON USER PRGM ALPHA 'SIGMA+' '1/X' SQRT LOG LN 'X<>Y' RDN SIN COS TAN SHIFT XEQ STO RCL SST ENTER CHS EEX BACK '-' 7 8 9 '+' 4 5 6 '*' 1 2 3 '/' 0 '.' 'R/S'"
