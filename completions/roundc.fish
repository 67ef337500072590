# Completions of roundc for fish, made by .ci/manual from what `roundc help` says.

# The options that take a value.
set -g __roundc_valued --always --by --check --clear --correct --delay --delays --delta --faults --format --gst --header --hears --inputs --jobs --nodes --omissions --orders --part --rounds --sample --schedule --seed --setup --stop --ticks --trace --vars

# The words of the line behind `roundc`, without options and their values.
function __roundc_words
    set -l is_value no
    for word in (commandline -opc)[2..-1]
        if test $is_value = yes
            set is_value no
        else if contains -- $word $__roundc_valued
            set is_value yes
        else if not string match -q -- '-*' $word
            echo $word
        end
    end
end

# Whether the line has a command, and behind it this many arguments if a number is given.
function __roundc_at -a command count
    set -l words (__roundc_words)
    for name in (string split -n ' ' -- $command)
        test "$words[1]" = $name; or return 1
        set -e words[1]
    end
    test -z "$count"; or test (count $words) = $count
end

complete -c roundc -f

complete -c roundc -n "__roundc_at '' 0" -a check -d 'Reads a source and says what it declares'
complete -c roundc -n "__roundc_at '' 0" -a show -d 'Prints the text of a source, also of a program of the library'
complete -c roundc -n "__roundc_at '' 0" -a run -d 'Runs a schedule and reports each completed round'
complete -c roundc -n "__roundc_at '' 0" -a draw -d 'Draws the run of a schedule, as an SVG picture'
complete -c roundc -n "__roundc_at '' 0" -a threads -d 'Runs a program by a thread for each node, and explains the run'
complete -c roundc -n "__roundc_at '' 0" -a judge -d 'Says whether a schedule keeps lockstep and the delay bound'
complete -c roundc -n "__roundc_at '' 0" -a lockstep -d 'Writes the schedule of a run in lockstep'
complete -c roundc -n "__roundc_at '' 0" -a realise -d 'Writes a schedule that omits just the messages of a file'
complete -c roundc -n "__roundc_at '' 0" -a rounds -d 'Runs a program in rounds that omit the messages of a file'
complete -c roundc -n "__roundc_at '' 0" -a explore -d 'Says whether properties hold of all runs in rounds'
complete -c roundc -n "__roundc_at '' 0" -a together -d 'Puts the answers of all parts of a search together'
complete -c roundc -n "__roundc_at '' 0" -a help -d 'Print this message or the help of the given subcommand(s)'
complete -c roundc -n "__roundc_at '' 0" -a why -d 'Says why a command is refused, and where, or why a run came out as it did'
complete -c roundc -n "__roundc_at '' 0" -a test -d 'Runs the commands of transcripts and compares what they print'
complete -c roundc -n "__roundc_at '' 0" -s h -l help -d 'Print help'
complete -c roundc -n "__roundc_at '' 0" -s V -l version -d 'Print version'

complete -c roundc -n "__roundc_at 'check'" -l format -r -x -a 'text json' -d 'text (by default) or json'
complete -c roundc -n "__roundc_at 'check'" -s h -l help -d 'Print help'
complete -c roundc -n "__roundc_at 'check'" -s V -l version -d 'Print version'
complete -c roundc -n "__roundc_at 'check' 0" -F -a '@gather: @count_votes: @dls1:'

complete -c roundc -n "__roundc_at 'show'" -s h -l help -d 'Print help'
complete -c roundc -n "__roundc_at 'show'" -s V -l version -d 'Print version'
complete -c roundc -n "__roundc_at 'show' 0" -F -a '@gather: @count_votes: @dls1:'

complete -c roundc -n "__roundc_at 'run'" -l schedule -r -F -d 'The schedule\'s file, or - for standard input'
complete -c roundc -n "__roundc_at 'run'" -l decided -d 'Adds a line that says what all decisions come to'
complete -c roundc -n "__roundc_at 'run'" -l format -r -x -a 'text json table summary omissions' -d 'text (by default), json, table, summary or omissions'
complete -c roundc -n "__roundc_at 'run'" -l by -r -x -a 'round node' -d 'What the blocks of a table are: round (by default) or node'
complete -c roundc -n "__roundc_at 'run'" -l vars -r -x -d 'The variables of a table, as x,seen; all by default'
complete -c roundc -n "__roundc_at 'run'" -l changed -d 'Has a table show only rows whose state or decision changed'
complete -c roundc -n "__roundc_at 'run'" -s h -l help -d 'Print help'
complete -c roundc -n "__roundc_at 'run'" -s V -l version -d 'Print version'
complete -c roundc -n "__roundc_at 'run' 0" -F -a '@gather: @count_votes: @dls1:'

complete -c roundc -n "__roundc_at 'draw'" -l schedule -r -F -d 'The schedule\'s file, or - for standard input'
complete -c roundc -n "__roundc_at 'draw'" -l rounds -r -x -d 'The rounds that are drawn, as 3-5; all by default'
complete -c roundc -n "__roundc_at 'draw'" -l nodes -r -x -d 'The nodes that are drawn, as 0,2,3; all by default'
complete -c roundc -n "__roundc_at 'draw'" -l grid -d 'Draws rounds by nodes, and not the single steps'
complete -c roundc -n "__roundc_at 'draw'" -l html -d 'Writes an HTML page that has the picture'
complete -c roundc -n "__roundc_at 'draw'" -s h -l help -d 'Print help'
complete -c roundc -n "__roundc_at 'draw'" -s V -l version -d 'Print version'
complete -c roundc -n "__roundc_at 'draw' 0" -F -a '@gather: @count_votes: @dls1:'

complete -c roundc -n "__roundc_at 'threads'" -l setup -r -F -d 'The thread setup\'s file, or - for standard input'
complete -c roundc -n "__roundc_at 'threads'" -l trace -r -F -d 'The file that the run\'s schedule is written to'
complete -c roundc -n "__roundc_at 'threads'" -l decided -d 'Adds a line that says what all decisions come to'
complete -c roundc -n "__roundc_at 'threads'" -s h -l help -d 'Print help'
complete -c roundc -n "__roundc_at 'threads'" -s V -l version -d 'Print version'
complete -c roundc -n "__roundc_at 'threads' 0" -F -a '@gather: @count_votes: @dls1:'

complete -c roundc -n "__roundc_at 'judge'" -l schedule -r -F -d 'The schedule\'s file, or - for standard input'
complete -c roundc -n "__roundc_at 'judge'" -l correct -r -x -d 'The correct nodes, as 0,2,3'
complete -c roundc -n "__roundc_at 'judge'" -l delta -r -x -d 'The delay bound in steps, 1 to 1024'
complete -c roundc -n "__roundc_at 'judge'" -l gst -r -x -d 'The step from which the bound is to hold'
complete -c roundc -n "__roundc_at 'judge'" -l format -r -x -a 'text json' -d 'text (by default) or json'
complete -c roundc -n "__roundc_at 'judge'" -s h -l help -d 'Print help'
complete -c roundc -n "__roundc_at 'judge'" -s V -l version -d 'Print version'
complete -c roundc -n "__roundc_at 'judge' 0" -F -a '@gather: @count_votes: @dls1:'

complete -c roundc -n "__roundc_at 'lockstep'" -l header -r -F -d 'The file of the five header lines, - for standard input, or @NODES:FAULTS:ROUNDS for inputs 0'
complete -c roundc -n "__roundc_at 'lockstep'" -l correct -r -x -d 'The correct nodes, as 0,2,3'
complete -c roundc -n "__roundc_at 'lockstep'" -l delta -r -x -d 'The delay bound in steps, 1 to 1024'
complete -c roundc -n "__roundc_at 'lockstep'" -l gst -r -x -d 'The step from which the bound holds'
complete -c roundc -n "__roundc_at 'lockstep'" -l delays -r -x -d 'The delays of the messages, by their serials'
complete -c roundc -n "__roundc_at 'lockstep'" -l orders -r -x -d 'The node that steps first in each tick'
complete -c roundc -n "__roundc_at 'lockstep'" -l ticks -r -x -d 'How many ticks; by default as many as the rounds need'
complete -c roundc -n "__roundc_at 'lockstep'" -l stop -r -x -d 'Node I takes no step from tick C on; may be repeated'
complete -c roundc -n "__roundc_at 'lockstep'" -l omissions -r -F -d 'The file of messages that are never released, or - for standard input'
complete -c roundc -n "__roundc_at 'lockstep'" -l delay -r -x -d 'The message of round R from node J to I has the delay W; may be repeated'
complete -c roundc -n "__roundc_at 'lockstep'" -s h -l help -d 'Print help'
complete -c roundc -n "__roundc_at 'lockstep'" -s V -l version -d 'Print version'
complete -c roundc -n "__roundc_at 'lockstep' 0" -F -a '@gather: @count_votes: @dls1:'

complete -c roundc -n "__roundc_at 'realise'" -l header -r -F -d 'The file of the five header lines, - for standard input, or @NODES:FAULTS:ROUNDS for inputs 0'
complete -c roundc -n "__roundc_at 'realise'" -l omissions -r -F -d 'The file of the omitted messages, or - for standard input'
complete -c roundc -n "__roundc_at 'realise'" -s h -l help -d 'Print help'
complete -c roundc -n "__roundc_at 'realise'" -s V -l version -d 'Print version'
complete -c roundc -n "__roundc_at 'realise' 0" -F -a '@gather: @count_votes: @dls1:'

complete -c roundc -n "__roundc_at 'rounds'" -l header -r -F -d 'The file of the five header lines, - for standard input, or @NODES:FAULTS:ROUNDS for inputs 0'
complete -c roundc -n "__roundc_at 'rounds'" -l omissions -r -F -d 'The file of the omitted messages, or - for standard input'
complete -c roundc -n "__roundc_at 'rounds'" -l decided -d 'Adds a line that says what all decisions come to'
complete -c roundc -n "__roundc_at 'rounds'" -l format -r -x -a 'text json table summary omissions' -d 'text (by default), json, table, summary or omissions'
complete -c roundc -n "__roundc_at 'rounds'" -l by -r -x -a 'round node' -d 'What the blocks of a table are: round (by default) or node'
complete -c roundc -n "__roundc_at 'rounds'" -l vars -r -x -d 'The variables of a table, as x,seen; all by default'
complete -c roundc -n "__roundc_at 'rounds'" -l changed -d 'Has a table show only rows whose state or decision changed'
complete -c roundc -n "__roundc_at 'rounds'" -s h -l help -d 'Print help'
complete -c roundc -n "__roundc_at 'rounds'" -s V -l version -d 'Print version'
complete -c roundc -n "__roundc_at 'rounds' 0" -F -a '@gather: @count_votes: @dls1:'

complete -c roundc -n "__roundc_at 'explore'" -l header -r -F -d 'The file of the five header lines, - for standard input, or @NODES:FAULTS:ROUNDS'
complete -c roundc -n "__roundc_at 'explore'" -l inputs -r -x -a 'header any' -d 'header, the default for a file, or any, the default for @NODES:FAULTS:ROUNDS'
complete -c roundc -n "__roundc_at 'explore'" -l faults -r -x -a 'none omission crash' -d 'How nodes fail: none (by default), omission or crash'
complete -c roundc -n "__roundc_at 'explore'" -l clear -r -x -d 'The round from which on the network omits nothing; by default there is none'
complete -c roundc -n "__roundc_at 'explore'" -l hears -r -x -d 'How many nodes each node hears in each round at least; 0 by default'
complete -c roundc -n "__roundc_at 'explore'" -l part -r -x -d 'Only part I of N of all lists of inputs; N is 65536 at most'
complete -c roundc -n "__roundc_at 'explore'" -l jobs -r -x -d 'How many jobs search at once, 1 to 256; 1 by default'
complete -c roundc -n "__roundc_at 'explore'" -l sample -r -x -d 'Only so many runs, made at random'
complete -c roundc -n "__roundc_at 'explore'" -l seed -r -x -d 'What the runs of a sample are made from; 0 by default'
complete -c roundc -n "__roundc_at 'explore'" -l check -r -x -a 'agreement validity final termination' -d 'Of agreement, validity, final and termination; by default the first three'
complete -c roundc -n "__roundc_at 'explore'" -l always -r -x -d 'What is to be true of each node\'s state after each round'
complete -c roundc -n "__roundc_at 'explore'" -l trace -r -F -d 'The file that a run\'s schedule is written to if a property fails'
complete -c roundc -n "__roundc_at 'explore'" -l format -r -x -a 'text json' -d 'text (by default) or json'
complete -c roundc -n "__roundc_at 'explore'" -l brief -d 'Prints the answers alone, without the runs in which properties fail'
complete -c roundc -n "__roundc_at 'explore'" -s h -l help -d 'Print help'
complete -c roundc -n "__roundc_at 'explore'" -s V -l version -d 'Print version'
complete -c roundc -n "__roundc_at 'explore' 0" -F -a '@gather: @count_votes: @dls1:'

complete -c roundc -n "__roundc_at 'together'" -s h -l help -d 'Print help'
complete -c roundc -n "__roundc_at 'together'" -s V -l version -d 'Print version'
complete -c roundc -n "__roundc_at 'together' 0" -F

complete -c roundc -n "__roundc_at 'help' 0" -a 'check show run draw threads judge lockstep realise rounds explore together why test'

complete -c roundc -n "__roundc_at 'why' 0" -a check -d 'Reads a source and says what it declares'
complete -c roundc -n "__roundc_at 'why' 0" -a show -d 'Prints the text of a source, also of a program of the library'
complete -c roundc -n "__roundc_at 'why' 0" -a run -d 'Runs a schedule and reports each completed round'
complete -c roundc -n "__roundc_at 'why' 0" -a draw -d 'Draws the run of a schedule, as an SVG picture'
complete -c roundc -n "__roundc_at 'why' 0" -a threads -d 'Runs a program by a thread for each node, and explains the run'
complete -c roundc -n "__roundc_at 'why' 0" -a judge -d 'Says whether a schedule keeps lockstep and the delay bound'
complete -c roundc -n "__roundc_at 'why' 0" -a lockstep -d 'Writes the schedule of a run in lockstep'
complete -c roundc -n "__roundc_at 'why' 0" -a realise -d 'Writes a schedule that omits just the messages of a file'
complete -c roundc -n "__roundc_at 'why' 0" -a rounds -d 'Runs a program in rounds that omit the messages of a file'
complete -c roundc -n "__roundc_at 'why' 0" -a explore -d 'Says whether properties hold of all runs in rounds'
complete -c roundc -n "__roundc_at 'why' 0" -a together -d 'Puts the answers of all parts of a search together'
complete -c roundc -n "__roundc_at 'why' 0" -a test -d 'Runs the commands of transcripts and compares what they print'

complete -c roundc -n "__roundc_at 'why check'" -l format -r -x -a 'text json' -d 'text (by default) or json'
complete -c roundc -n "__roundc_at 'why check'" -s h -l help -d 'Print help'
complete -c roundc -n "__roundc_at 'why check'" -s V -l version -d 'Print version'
complete -c roundc -n "__roundc_at 'why check' 0" -F -a '@gather: @count_votes: @dls1:'

complete -c roundc -n "__roundc_at 'why show'" -s h -l help -d 'Print help'
complete -c roundc -n "__roundc_at 'why show'" -s V -l version -d 'Print version'
complete -c roundc -n "__roundc_at 'why show' 0" -F -a '@gather: @count_votes: @dls1:'

complete -c roundc -n "__roundc_at 'why run'" -l schedule -r -F -d 'The schedule\'s file, or - for standard input'
complete -c roundc -n "__roundc_at 'why run'" -l decided -d 'Adds a line that says what all decisions come to'
complete -c roundc -n "__roundc_at 'why run'" -l format -r -x -a 'text json table summary omissions' -d 'text (by default), json, table, summary or omissions'
complete -c roundc -n "__roundc_at 'why run'" -l by -r -x -a 'round node' -d 'What the blocks of a table are: round (by default) or node'
complete -c roundc -n "__roundc_at 'why run'" -l vars -r -x -d 'The variables of a table, as x,seen; all by default'
complete -c roundc -n "__roundc_at 'why run'" -l changed -d 'Has a table show only rows whose state or decision changed'
complete -c roundc -n "__roundc_at 'why run'" -s h -l help -d 'Print help'
complete -c roundc -n "__roundc_at 'why run'" -s V -l version -d 'Print version'
complete -c roundc -n "__roundc_at 'why run' 0" -F -a '@gather: @count_votes: @dls1:'

complete -c roundc -n "__roundc_at 'why draw'" -l schedule -r -F -d 'The schedule\'s file, or - for standard input'
complete -c roundc -n "__roundc_at 'why draw'" -l rounds -r -x -d 'The rounds that are drawn, as 3-5; all by default'
complete -c roundc -n "__roundc_at 'why draw'" -l nodes -r -x -d 'The nodes that are drawn, as 0,2,3; all by default'
complete -c roundc -n "__roundc_at 'why draw'" -l grid -d 'Draws rounds by nodes, and not the single steps'
complete -c roundc -n "__roundc_at 'why draw'" -l html -d 'Writes an HTML page that has the picture'
complete -c roundc -n "__roundc_at 'why draw'" -s h -l help -d 'Print help'
complete -c roundc -n "__roundc_at 'why draw'" -s V -l version -d 'Print version'
complete -c roundc -n "__roundc_at 'why draw' 0" -F -a '@gather: @count_votes: @dls1:'

complete -c roundc -n "__roundc_at 'why threads'" -l setup -r -F -d 'The thread setup\'s file, or - for standard input'
complete -c roundc -n "__roundc_at 'why threads'" -l trace -r -F -d 'The file that the run\'s schedule is written to'
complete -c roundc -n "__roundc_at 'why threads'" -l decided -d 'Adds a line that says what all decisions come to'
complete -c roundc -n "__roundc_at 'why threads'" -s h -l help -d 'Print help'
complete -c roundc -n "__roundc_at 'why threads'" -s V -l version -d 'Print version'
complete -c roundc -n "__roundc_at 'why threads' 0" -F -a '@gather: @count_votes: @dls1:'

complete -c roundc -n "__roundc_at 'why judge'" -l schedule -r -F -d 'The schedule\'s file, or - for standard input'
complete -c roundc -n "__roundc_at 'why judge'" -l correct -r -x -d 'The correct nodes, as 0,2,3'
complete -c roundc -n "__roundc_at 'why judge'" -l delta -r -x -d 'The delay bound in steps, 1 to 1024'
complete -c roundc -n "__roundc_at 'why judge'" -l gst -r -x -d 'The step from which the bound is to hold'
complete -c roundc -n "__roundc_at 'why judge'" -l format -r -x -a 'text json' -d 'text (by default) or json'
complete -c roundc -n "__roundc_at 'why judge'" -s h -l help -d 'Print help'
complete -c roundc -n "__roundc_at 'why judge'" -s V -l version -d 'Print version'
complete -c roundc -n "__roundc_at 'why judge' 0" -F -a '@gather: @count_votes: @dls1:'

complete -c roundc -n "__roundc_at 'why lockstep'" -l header -r -F -d 'The file of the five header lines, - for standard input, or @NODES:FAULTS:ROUNDS for inputs 0'
complete -c roundc -n "__roundc_at 'why lockstep'" -l correct -r -x -d 'The correct nodes, as 0,2,3'
complete -c roundc -n "__roundc_at 'why lockstep'" -l delta -r -x -d 'The delay bound in steps, 1 to 1024'
complete -c roundc -n "__roundc_at 'why lockstep'" -l gst -r -x -d 'The step from which the bound holds'
complete -c roundc -n "__roundc_at 'why lockstep'" -l delays -r -x -d 'The delays of the messages, by their serials'
complete -c roundc -n "__roundc_at 'why lockstep'" -l orders -r -x -d 'The node that steps first in each tick'
complete -c roundc -n "__roundc_at 'why lockstep'" -l ticks -r -x -d 'How many ticks; by default as many as the rounds need'
complete -c roundc -n "__roundc_at 'why lockstep'" -l stop -r -x -d 'Node I takes no step from tick C on; may be repeated'
complete -c roundc -n "__roundc_at 'why lockstep'" -l omissions -r -F -d 'The file of messages that are never released, or - for standard input'
complete -c roundc -n "__roundc_at 'why lockstep'" -l delay -r -x -d 'The message of round R from node J to I has the delay W; may be repeated'
complete -c roundc -n "__roundc_at 'why lockstep'" -s h -l help -d 'Print help'
complete -c roundc -n "__roundc_at 'why lockstep'" -s V -l version -d 'Print version'
complete -c roundc -n "__roundc_at 'why lockstep' 0" -F -a '@gather: @count_votes: @dls1:'

complete -c roundc -n "__roundc_at 'why realise'" -l header -r -F -d 'The file of the five header lines, - for standard input, or @NODES:FAULTS:ROUNDS for inputs 0'
complete -c roundc -n "__roundc_at 'why realise'" -l omissions -r -F -d 'The file of the omitted messages, or - for standard input'
complete -c roundc -n "__roundc_at 'why realise'" -s h -l help -d 'Print help'
complete -c roundc -n "__roundc_at 'why realise'" -s V -l version -d 'Print version'
complete -c roundc -n "__roundc_at 'why realise' 0" -F -a '@gather: @count_votes: @dls1:'

complete -c roundc -n "__roundc_at 'why rounds'" -l header -r -F -d 'The file of the five header lines, - for standard input, or @NODES:FAULTS:ROUNDS for inputs 0'
complete -c roundc -n "__roundc_at 'why rounds'" -l omissions -r -F -d 'The file of the omitted messages, or - for standard input'
complete -c roundc -n "__roundc_at 'why rounds'" -l decided -d 'Adds a line that says what all decisions come to'
complete -c roundc -n "__roundc_at 'why rounds'" -l format -r -x -a 'text json table summary omissions' -d 'text (by default), json, table, summary or omissions'
complete -c roundc -n "__roundc_at 'why rounds'" -l by -r -x -a 'round node' -d 'What the blocks of a table are: round (by default) or node'
complete -c roundc -n "__roundc_at 'why rounds'" -l vars -r -x -d 'The variables of a table, as x,seen; all by default'
complete -c roundc -n "__roundc_at 'why rounds'" -l changed -d 'Has a table show only rows whose state or decision changed'
complete -c roundc -n "__roundc_at 'why rounds'" -s h -l help -d 'Print help'
complete -c roundc -n "__roundc_at 'why rounds'" -s V -l version -d 'Print version'
complete -c roundc -n "__roundc_at 'why rounds' 0" -F -a '@gather: @count_votes: @dls1:'

complete -c roundc -n "__roundc_at 'why explore'" -l header -r -F -d 'The file of the five header lines, - for standard input, or @NODES:FAULTS:ROUNDS'
complete -c roundc -n "__roundc_at 'why explore'" -l inputs -r -x -a 'header any' -d 'header, the default for a file, or any, the default for @NODES:FAULTS:ROUNDS'
complete -c roundc -n "__roundc_at 'why explore'" -l faults -r -x -a 'none omission crash' -d 'How nodes fail: none (by default), omission or crash'
complete -c roundc -n "__roundc_at 'why explore'" -l clear -r -x -d 'The round from which on the network omits nothing; by default there is none'
complete -c roundc -n "__roundc_at 'why explore'" -l hears -r -x -d 'How many nodes each node hears in each round at least; 0 by default'
complete -c roundc -n "__roundc_at 'why explore'" -l part -r -x -d 'Only part I of N of all lists of inputs; N is 65536 at most'
complete -c roundc -n "__roundc_at 'why explore'" -l jobs -r -x -d 'How many jobs search at once, 1 to 256; 1 by default'
complete -c roundc -n "__roundc_at 'why explore'" -l sample -r -x -d 'Only so many runs, made at random'
complete -c roundc -n "__roundc_at 'why explore'" -l seed -r -x -d 'What the runs of a sample are made from; 0 by default'
complete -c roundc -n "__roundc_at 'why explore'" -l check -r -x -a 'agreement validity final termination' -d 'Of agreement, validity, final and termination; by default the first three'
complete -c roundc -n "__roundc_at 'why explore'" -l always -r -x -d 'What is to be true of each node\'s state after each round'
complete -c roundc -n "__roundc_at 'why explore'" -l trace -r -F -d 'The file that a run\'s schedule is written to if a property fails'
complete -c roundc -n "__roundc_at 'why explore'" -l format -r -x -a 'text json' -d 'text (by default) or json'
complete -c roundc -n "__roundc_at 'why explore'" -l brief -d 'Prints the answers alone, without the runs in which properties fail'
complete -c roundc -n "__roundc_at 'why explore'" -s h -l help -d 'Print help'
complete -c roundc -n "__roundc_at 'why explore'" -s V -l version -d 'Print version'
complete -c roundc -n "__roundc_at 'why explore' 0" -F -a '@gather: @count_votes: @dls1:'

complete -c roundc -n "__roundc_at 'why together'" -s h -l help -d 'Print help'
complete -c roundc -n "__roundc_at 'why together'" -s V -l version -d 'Print version'
complete -c roundc -n "__roundc_at 'why together' 0" -F

complete -c roundc -n "__roundc_at 'why test'" -l update -d 'Writes what the commands print into the transcripts'
complete -c roundc -n "__roundc_at 'why test'" -l format -r -x -a 'text json junit' -d 'How the results are printed'
complete -c roundc -n "__roundc_at 'why test'" -s h -l help -d 'Print help'
complete -c roundc -n "__roundc_at 'why test' 0" -F

complete -c roundc -n "__roundc_at 'test'" -l update -d 'Writes what the commands print into the transcripts'
complete -c roundc -n "__roundc_at 'test'" -l format -r -x -a 'text json junit' -d 'How the results are printed'
complete -c roundc -n "__roundc_at 'test'" -s h -l help -d 'Print help'
complete -c roundc -n "__roundc_at 'test' 0" -F
