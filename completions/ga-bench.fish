# Made by scripts/from_help.py from the program's help; change that, and not this file.

function __ga_bench_route
    set -l word (string replace -r -- '^-[^=]*=' '' (commandline -ct))
    set -l head (string match -r '^.*[,/]' -- $word)
    set -l taken (string split -n -- , (string replace -a -- / , "$head"))
    set -l nodes
    if string match -q '*,' -- "$head"
        set -l last $taken[-1]
        string match -qr '^[0-7](0[0-9]|1[0-7])$' -- $last; or return
        set -l row (string sub -l 1 $last)
        set -l column (string sub -s 2 $last)
        test $column = 17; or set -a nodes $row(printf %02d (math $column + 1))
        test $column = 00; or set -a nodes $row(printf %02d (math $column - 1))
        test $row = 7; or set -a nodes (math $row + 1)$column
        test $row = 0; or set -a nodes (math $row - 1)$column
    else if test -n "$head"
        set nodes $taken[1]
        set taken
    else
        set -l columns (printf '%02d\n' (seq 0 17))
        set nodes {0,7}$columns {1,2,3,4,5,6}{00,17}
    end
    for node in $nodes
        contains $node $taken; or echo "$head"$node
    end
end

complete -c ga-bench -f
complete -c ga-bench -n '__fish_use_subcommand' -s h -l help -d 'Print help'
complete -c ga-bench -n '__fish_use_subcommand' -s V -l version -d 'Print version'
complete -c ga-bench -n __fish_use_subcommand -a one -d 'Runs words in the memory of one node, and prints the node'
complete -c ga-bench -n __fish_use_subcommand -a asm -d 'Assembles source text, and prints the words of each node'
complete -c ga-bench -n __fish_use_subcommand -a dis -d 'Prints words as source text'
complete -c ga-bench -n __fish_use_subcommand -a boot -d 'Assembles source text, and prints the words that boot a route or a tree'
complete -c ga-bench -n __fish_use_subcommand -a run -d 'Boots a route or a tree, runs its nodes in threads, and prints them'
complete -c ga-bench -n __fish_use_subcommand -a debug -d 'Loads source text into a chip, runs commands on it, and prints the replies'
complete -c ga-bench -n __fish_use_subcommand -a replay -d 'Runs the commands of a replay text, and compares their results'
complete -c ga-bench -n __fish_use_subcommand -a expand -d 'Expands constants, sides, directions and shared bodies to source text'
complete -c ga-bench -n __fish_use_subcommand -a list -d 'Lists the words of a source text, with their instructions and their lines in the text'
complete -c ga-bench -n __fish_use_subcommand -a lint -d 'Warns of code that assembles, but is nearly always wrong'
complete -c ga-bench -n __fish_use_subcommand -a race -d 'Decides whether the schedule can change what a program does'
complete -c ga-bench -n __fish_use_subcommand -a map -d 'Shows what each node does and which words are pending, as a picture'
complete -c ga-bench -n __fish_use_subcommand -a profile -d 'Shows in how many turns each node worked and waited, and the bottleneck'
complete -c ga-bench -n __fish_use_subcommand -a trace -d 'Writes a run as a waveform in VCD'
complete -c ga-bench -n __fish_use_subcommand -a report -d 'Writes a page in HTML that shows what each node did in a run'
complete -c ga-bench -n __fish_use_subcommand -a check -d 'Runs the commands of a transcript, and compares the replies with those in it'
complete -c ga-bench -n __fish_use_subcommand -a record -d 'Runs the commands of a transcript, and writes it with their replies'
complete -c ga-bench -n __fish_use_subcommand -a explain -d 'Explains an error, a warning, a state or a term'
complete -c ga-bench -n __fish_use_subcommand -a help -d 'Print this message or the help of the given subcommand(s)'
complete -c ga-bench -n '__fish_seen_subcommand_from one' -s h -l help -d 'Print help'
complete -c ga-bench -n '__fish_seen_subcommand_from one; and test (count (commandline -opc)) -ge 3' -F
complete -c ga-bench -n '__fish_seen_subcommand_from asm' -s h -l help -d 'Print help'
complete -c ga-bench -n '__fish_seen_subcommand_from asm' -F
complete -c ga-bench -n '__fish_seen_subcommand_from dis' -l code -x -d 'How many words are code, from 0 to 64; the rest are data. By default all are code'
complete -c ga-bench -n '__fish_seen_subcommand_from dis' -s h -l help -d 'Print help'
complete -c ga-bench -n '__fish_seen_subcommand_from dis' -F
complete -c ga-bench -n '__fish_seen_subcommand_from boot' -s h -l help -d 'Print help'
complete -c ga-bench -n '__fish_seen_subcommand_from boot; and test (count (commandline -opc)) = 2' -a '(__ga_bench_route)'
complete -c ga-bench -n '__fish_seen_subcommand_from boot; and test (count (commandline -opc)) -ge 3' -F
complete -c ga-bench -n '__fish_seen_subcommand_from run' -s h -l help -d 'Print help'
complete -c ga-bench -n '__fish_seen_subcommand_from run; and test (count (commandline -opc)) = 2' -a '(__ga_bench_route)'
complete -c ga-bench -n '__fish_seen_subcommand_from run; and test (count (commandline -opc)) -ge 5' -F
complete -c ga-bench -n '__fish_seen_subcommand_from debug' -l place -d 'The input is source text, even if it begins with \'profile\'; its words are placed'
complete -c ga-bench -n '__fish_seen_subcommand_from debug' -l route -x -a '(__ga_bench_route)' -d 'The input is source text, which boots along this route, or a tree of routes'
complete -c ga-bench -n '__fish_seen_subcommand_from debug' -l any-source -d 'A source that FILE names may lie anywhere, and not only in its folder or below'
complete -c ga-bench -n '__fish_seen_subcommand_from debug' -s h -l help -d 'Print help'
complete -c ga-bench -n '__fish_seen_subcommand_from debug' -F
complete -c ga-bench -n '__fish_seen_subcommand_from replay' -s h -l help -d 'Print help'
complete -c ga-bench -n '__fish_seen_subcommand_from replay' -F
complete -c ga-bench -n '__fish_seen_subcommand_from expand' -s h -l help -d 'Print help'
complete -c ga-bench -n '__fish_seen_subcommand_from expand' -F
complete -c ga-bench -n '__fish_seen_subcommand_from list' -l place -d 'The input is source text, even if it begins with \'profile\'; its words are placed'
complete -c ga-bench -n '__fish_seen_subcommand_from list' -l route -x -a '(__ga_bench_route)' -d 'The input is source text, which boots along this route, or a tree of routes'
complete -c ga-bench -n '__fish_seen_subcommand_from list' -l turns -x -d 'How many turns are made at most, from 0 to 1000000; by default 1000000'
complete -c ga-bench -n '__fish_seen_subcommand_from list' -l labels -d 'Writes only the labels: the node, the label and its address, a line each'
complete -c ga-bench -n '__fish_seen_subcommand_from list' -l counts -d 'Makes a run, and writes how often each word was fetched and each opcode ran'
complete -c ga-bench -n '__fish_seen_subcommand_from list' -s h -l help -d 'Print help'
complete -c ga-bench -n '__fish_seen_subcommand_from list' -F
complete -c ga-bench -n '__fish_seen_subcommand_from lint' -l deny -d 'Exits with status 1 if there is a warning'
complete -c ga-bench -n '__fish_seen_subcommand_from lint' -l json -d 'Writes each warning and each error as JSON, one object on a line'
complete -c ga-bench -n '__fish_seen_subcommand_from lint' -s h -l help -d 'Print help'
complete -c ga-bench -n '__fish_seen_subcommand_from lint' -F
complete -c ga-bench -n '__fish_seen_subcommand_from race' -l place -d 'The input is source text, even if it begins with \'profile\'; its words are placed'
complete -c ga-bench -n '__fish_seen_subcommand_from race' -l route -x -a '(__ga_bench_route)' -d 'The input is source text, which boots along this route, or a tree of routes'
complete -c ga-bench -n '__fish_seen_subcommand_from race' -l turns -x -d 'How many turns are made at most, from 0 to 1000000; by default 1000000'
complete -c ga-bench -n '__fish_seen_subcommand_from race' -l witness -d 'For a race, writes a transcript up to the moment at which both words are pending'
complete -c ga-bench -n '__fish_seen_subcommand_from race' -s h -l help -d 'Print help'
complete -c ga-bench -n '__fish_seen_subcommand_from race' -F
complete -c ga-bench -n '__fish_seen_subcommand_from map' -l place -d 'The input is source text, even if it begins with \'profile\'; its words are placed'
complete -c ga-bench -n '__fish_seen_subcommand_from map' -l route -x -a '(__ga_bench_route)' -d 'The input is source text, which boots along this route, or a tree of routes'
complete -c ga-bench -n '__fish_seen_subcommand_from map' -l turns -x -d 'How many turns are made at most, from 0 to 1000000; by default 1000000'
complete -c ga-bench -n '__fish_seen_subcommand_from map' -s h -l help -d 'Print help'
complete -c ga-bench -n '__fish_seen_subcommand_from map' -F
complete -c ga-bench -n '__fish_seen_subcommand_from profile' -l place -d 'The input is source text, even if it begins with \'profile\'; its words are placed'
complete -c ga-bench -n '__fish_seen_subcommand_from profile' -l route -x -a '(__ga_bench_route)' -d 'The input is source text, which boots along this route, or a tree of routes'
complete -c ga-bench -n '__fish_seen_subcommand_from profile' -l turns -x -d 'How many turns are made at most, from 0 to 1000000; by default 1000000'
complete -c ga-bench -n '__fish_seen_subcommand_from profile' -l from -x -d 'Where it begins: with the last node that begins (last, the default), the first (first), or a turn'
complete -c ga-bench -n '__fish_seen_subcommand_from profile' -l json -d 'Writes the numbers of the window and its nodes as JSON, on one line'
complete -c ga-bench -n '__fish_seen_subcommand_from profile' -s h -l help -d 'Print help'
complete -c ga-bench -n '__fish_seen_subcommand_from profile' -F
complete -c ga-bench -n '__fish_seen_subcommand_from trace' -l place -d 'The input is source text, even if it begins with \'profile\'; its words are placed'
complete -c ga-bench -n '__fish_seen_subcommand_from trace' -l route -x -a '(__ga_bench_route)' -d 'The input is source text, which boots along this route, or a tree of routes'
complete -c ga-bench -n '__fish_seen_subcommand_from trace' -l turns -x -d 'How many turns are made at most, from 0 to 1000000; by default 1000000'
complete -c ga-bench -n '__fish_seen_subcommand_from trace' -l nodes -x -d 'The nodes that are shown, as 708,709; by default those that the source text names'
complete -c ga-bench -n '__fish_seen_subcommand_from trace' -l save -x -d 'The name of a save file for GTKWave, which is written or replaced'
complete -c ga-bench -n '__fish_seen_subcommand_from trace' -s h -l help -d 'Print help'
complete -c ga-bench -n '__fish_seen_subcommand_from trace' -F
complete -c ga-bench -n '__fish_seen_subcommand_from report' -l place -d 'The input is source text, even if it begins with \'profile\'; its words are placed'
complete -c ga-bench -n '__fish_seen_subcommand_from report' -l route -x -a '(__ga_bench_route)' -d 'The input is source text, which boots along this route, or a tree of routes'
complete -c ga-bench -n '__fish_seen_subcommand_from report' -l turns -x -d 'How many turns are made at most, from 0 to 1000000; by default 1000000'
complete -c ga-bench -n '__fish_seen_subcommand_from report' -l from -x -d 'Where it begins: with the last node that begins (last, the default), the first (first), or a turn'
complete -c ga-bench -n '__fish_seen_subcommand_from report' -s h -l help -d 'Print help'
complete -c ga-bench -n '__fish_seen_subcommand_from report' -F
complete -c ga-bench -n '__fish_seen_subcommand_from check' -l any-source -d 'A source that FILE names may lie anywhere, and not only in its folder or below'
complete -c ga-bench -n '__fish_seen_subcommand_from check' -s h -l help -d 'Print help'
complete -c ga-bench -n '__fish_seen_subcommand_from check' -F
complete -c ga-bench -n '__fish_seen_subcommand_from record' -l any-source -d 'A source that FILE names may lie anywhere, and not only in its folder or below'
complete -c ga-bench -n '__fish_seen_subcommand_from record' -l write -d 'Replaces each FILE by its recording'
complete -c ga-bench -n '__fish_seen_subcommand_from record' -s h -l help -d 'Print help'
complete -c ga-bench -n '__fish_seen_subcommand_from record' -F
complete -c ga-bench -n '__fish_seen_subcommand_from explain' -s h -l help -d 'Print help'
complete -c ga-bench -n '__fish_seen_subcommand_from explain' -a 'BadToken NumberRange BadNode DuplicateNode DuplicateLabel ReservedLabel OpenBracket BadWord NoNode Empty UndefinedLabel OutOfReach UnextAlone TooLong ReservedName DuplicateName OpenDefinition NoNeighbour UnknownBody TooLarge MixedSides BadInclude IncludeCycle IncludeDepth IncludeCount IncludeSize UnextRepeats SplitLoop RunsOff PushesTooMany PopsTooMany UnusedLabel Unreachable SeveralPorts ReturnsNowhere LeavesExtended OverMemory IntoData BeginsInData ReadsIo EdgePort BadRoute NotEdge NotNeighbour Repeated OtherRoot Unreached BadCommand BadAddress BadSide BadCount BadValue NotHeld BadProfile NoGo Source Asm Route Tree Boot EarlyReply differs read NoFile Folder NotAFile Outside Exists NoName BadText BadCode write Write memory Memory own take post check input stopped Counted IoRead Rom Unmapped MultiWrite carry moved waits held stuck ring race turn place step slot follower profile const body use include to'
complete -c ga-bench -n '__fish_seen_subcommand_from help' -a 'one asm dis boot run debug replay expand list lint race map profile trace report check record explain help'
