# Completion of cheri-cap's arguments for fish. tests/install compares it with the program's help.

# Prints the names of permissions, each after those that the word has already, which are joined by a plus sign.
function __cheri_cap_perms
    set -l before (commandline -ct | string replace -r '^--perms=' '' | string replace -r '[^+]*$' '')
    printf "$before%s\n" GLOBAL EXECUTE LOAD STORE LOAD_CAP STORE_CAP STORE_LOCAL_CAP SEAL CINVOKE UNSEAL SYSTEM_REGS SET_CID USER0 USER1 USER2 USER3
end

complete -c cheri-cap -f
complete -c cheri-cap -s h -l help -d 'Print help'
complete -c cheri-cap -n __fish_use_subcommand -s V -l version -d 'Print the version'
complete -c cheri-cap -n __fish_use_subcommand -a show -d 'Show the fields of a capability word'
complete -c cheri-cap -n __fish_use_subcommand -a round -d 'Show the size and alignment to reserve for N bytes'
complete -c cheri-cap -n __fish_use_subcommand -a run -d 'Run a script on a new machine'
complete -c cheri-cap -n __fish_use_subcommand -a plan -d 'Run a script on a machine with a pool'
complete -c cheri-cap -n __fish_use_subcommand -a map -d 'Draw a pool at the end of a script'
complete -c cheri-cap -n __fish_use_subcommand -a replay -d 'Replay the trace of an allocator'
complete -c cheri-cap -n __fish_use_subcommand -a decode -d 'Decode one word per line'
complete -c cheri-cap -n __fish_use_subcommand -a annotate -d 'Copy a text with the line of each word'
complete -c cheri-cap -n __fish_use_subcommand -a explain -d 'Explain how a capability word is decoded'
complete -c cheri-cap -n __fish_use_subcommand -a help -d 'Print the help of a command'
complete -c cheri-cap -n '__fish_seen_subcommand_from help' -a 'show round run plan map replay decode annotate explain'
complete -c cheri-cap -n '__fish_seen_subcommand_from show' -l line -d 'Show the word on one line'
complete -c cheri-cap -n '__fish_seen_subcommand_from show' -l format -x -a 'columns text fixed csv json' -d 'Show the word in a format of decode'
complete -c cheri-cap -n '__fish_seen_subcommand_from round' -l base -x -d 'Show the bounds granted from B'
complete -c cheri-cap -n '__fish_seen_subcommand_from round' -l list -r -F -d 'Read lengths from FILE'
complete -c cheri-cap -n '__fish_seen_subcommand_from explain' -l length -x -d 'Explain bounds of N bytes'
complete -c cheri-cap -n '__fish_seen_subcommand_from explain' -l base -x -d 'Their first address'
complete -c cheri-cap -n '__fish_seen_subcommand_from run plan map' -l slots -x -d 'Maximum number of slots and of objects, 1 to 65536'
complete -c cheri-cap -n '__fish_seen_subcommand_from run plan' -l stats -d 'Print a summary and hints on standard error'
complete -c cheri-cap -n '__fish_seen_subcommand_from map explain' -l svg -d 'Draw a picture for a page'
complete -c cheri-cap -n '__fish_seen_subcommand_from plan map replay' -l align -x -a '1 16' -d 'Minimum alignment of objects'
complete -c cheri-cap -n '__fish_seen_subcommand_from replay' -l format -x -a 'own mtrace heaptrack ltrace' -d 'Format of the trace'
complete -c cheri-cap -n '__fish_seen_subcommand_from replay' -l realloc -x -a 'move keep' -d 'Effect of a realloc'
complete -c cheri-cap -n '__fish_seen_subcommand_from replay' -l sweep -x -a 'none never trace 25% 25%:live 25%:high bytes: frees:' -d 'When the quarantine is swept'
complete -c cheri-cap -n '__fish_seen_subcommand_from replay' -l min -x -d 'Quarantined bytes below which nothing is swept'
complete -c cheri-cap -n '__fish_seen_subcommand_from replay' -l pool -x -d 'Bytes in which objects are placed'
complete -c cheri-cap -n '__fish_seen_subcommand_from replay' -l strict -d 'Stop after a refused line'
complete -c cheri-cap -n '__fish_seen_subcommand_from replay' -l summary -x -a 'text csv json' -d 'Format of the summary'
complete -c cheri-cap -n '__fish_seen_subcommand_from replay' -l each -x -d 'Print a series instead of the summary'
complete -c cheri-cap -n '__fish_seen_subcommand_from replay' -l sizes -d 'Print a table of sizes instead of the summary'
complete -c cheri-cap -n '__fish_seen_subcommand_from replay' -l svg -d 'Print a chart instead of the summary'
complete -c cheri-cap -n '__fish_seen_subcommand_from replay' -l script -d 'Print a script instead of the summary'
complete -c cheri-cap -n '__fish_seen_subcommand_from decode' -l format -x -a 'columns text fixed csv json' -d 'Format of the output'
complete -c cheri-cap -n '__fish_seen_subcommand_from decode' -l bytes -x -a 'little big' -d 'Read raw words of 16 bytes'
complete -c cheri-cap -n '__fish_seen_subcommand_from decode' -l elf -d 'Read the segments of a core file'
complete -c cheri-cap -n '__fish_seen_subcommand_from decode' -l skip -x -d 'Number of bytes that are not decoded'
complete -c cheri-cap -n '__fish_seen_subcommand_from decode' -l count -x -d 'Maximum number of words'
complete -c cheri-cap -n '__fish_seen_subcommand_from decode' -l at -x -d 'Print addresses from START'
complete -c cheri-cap -n '__fish_seen_subcommand_from decode' -l holds -x -d 'List capabilities to ADDRESS'
complete -c cheri-cap -n '__fish_seen_subcommand_from decode' -l perms -x -a '(__cheri_cap_perms)' -d 'List capabilities with permissions'
complete -c cheri-cap -n '__fish_seen_subcommand_from decode' -l unsealed -d 'List unsealed capabilities'
complete -c cheri-cap -n '__fish_seen_subcommand_from decode' -l tags -r -F -d 'List words tagged in FILE'
complete -c cheri-cap -n '__fish_seen_subcommand_from run plan map replay decode annotate' -F
