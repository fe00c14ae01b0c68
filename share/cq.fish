# Completion of cq for fish.
function __cq_arguments
    # Returns whether the command has this name, and as many arguments before the cursor.
    set -l words (commandline -opc | string match -v -- '-*')
    test (count $words) -ge 2; and test "$words[2]" = $argv[1]; and test (math (count $words) - 2) = $argv[2]
end

function __cq_folder
    set -l words (commandline -opc)
    echo $words[3]
end

complete -c cq -f
complete -c cq -l help -s h -d 'Print help'
complete -c cq -n __fish_use_subcommand -l version -s V -d 'Print version'
complete -c cq -n __fish_use_subcommand -a echo -d 'Store each line of the input, and print it with its number'
complete -c cq -n __fish_use_subcommand -a cycle -d 'Print the cycle of a moment, its name and its first index'
complete -c cq -n __fish_use_subcommand -a race -d 'Let two appenders and two tailers share a new queue'
complete -c cq -n __fish_use_subcommand -a explain -d 'Print what a fault means, and what to do'
complete -c cq -n __fish_use_subcommand -a init -d 'Make a queue in a folder'
complete -c cq -n __fish_use_subcommand -a new -d 'Make a folder with a queue'
complete -c cq -n __fish_use_subcommand -a write -d 'Append each line of the input'
complete -c cq -n __fish_use_subcommand -a log -d 'Keep a queue open, and append each line as it comes'
complete -c cq -n __fish_use_subcommand -a read -d 'Print the messages in order'
complete -c cq -n __fish_use_subcommand -a take -d 'Print the next message of a tailer, and move the tailer after it'
complete -c cq -n __fish_use_subcommand -a drop -d 'Let reads skip old cycles'
complete -c cq -n __fish_use_subcommand -a trim -d 'Remove the images of dropped cycles, and print their names'
complete -c cq -n __fish_use_subcommand -a check -d 'Print of each image what it holds, or its fault'
complete -c cq -n __fish_use_subcommand -a stat -d 'Print the settings of a queue, its cycles, its names, and what is left'
complete -c cq -n __fish_use_subcommand -a dump -d 'Print the records of an image'
complete -c cq -n __fish_use_subcommand -a salvage -d 'Print the messages before the fault of an image'
complete -c cq -n __fish_use_subcommand -a repair -d 'Make the messages before the fault of an image the image'
complete -c cq -n __fish_use_subcommand -a migrate -d 'Make a folder of version 1 one of version 2'
complete -c cq -n __fish_use_subcommand -a name -d 'Print the names of the tailers, add and remove names, and move them'
complete -c cq -n __fish_use_subcommand -a help -d 'Print the help of a command'
complete -c cq -n '__fish_seen_subcommand_from new' -l roll -x -a 'daily hourly minutely' -d 'How long a cycle is'
complete -c cq -n '__fish_seen_subcommand_from new' -l cells -x -d 'The cells of a cycle'
complete -c cq -n '__fish_seen_subcommand_from new' -l cycles -x -d 'How many cycles may begin'
complete -c cq -n '__fish_seen_subcommand_from write' -l null -d 'Append what each byte 0 ends, in place of each line'
complete -c cq -n '__fish_seen_subcommand_from write' -l whole -d 'Append the whole input as one message'
complete -c cq -n '__fish_seen_subcommand_from read' -l back -d 'From the end on, towards the first message'
complete -c cq -n '__fish_seen_subcommand_from read' -l from -x -d 'The index to begin at'
complete -c cq -n '__fish_seen_subcommand_from read' -l limit -x -d 'Print the first of these messages, and no more'
complete -c cq -n '__fish_seen_subcommand_from read' -l last -x -d 'Print the last messages, in order'
complete -c cq -n '__fish_seen_subcommand_from read' -l since -x -d 'Print messages at or above this point alone'
complete -c cq -n '__fish_seen_subcommand_from read' -l until -x -d 'Print messages below this point alone'
complete -c cq -n '__fish_seen_subcommand_from read' -l text -d 'Print the message alone, on a line'
complete -c cq -n '__fish_seen_subcommand_from read' -l null -d 'Print the message alone, and a byte 0'
complete -c cq -n '__fish_seen_subcommand_from read' -l hex -d 'Print the bytes in hexadecimal digits'
complete -c cq -n '__fish_seen_subcommand_from read' -l json -d 'Print an object of JSON, on a line'
complete -c cq -n '__fish_seen_subcommand_from read' -l follow -d 'Then wait, and print the messages that come'
complete -c cq -n '__fish_seen_subcommand_from read' -l for -x -d 'End after this many seconds'
complete -c cq -n '__fish_seen_subcommand_from take' -l limit -x -d 'Take the next N messages at once, or as many as have come'
complete -c cq -n '__fish_seen_subcommand_from take' -l peek -d 'Print what it would take, and do not move the tailer'
complete -c cq -n '__fish_seen_subcommand_from take' -l wait -x -d 'Wait up to this many seconds where no message has come'
complete -c cq -n '__fish_seen_subcommand_from trim' -l keep -x -d 'Drop all cycles but the last N that have begun'
complete -c cq -n '__fish_seen_subcommand_from trim' -l before -x -d 'Drop the cycles before this one'
complete -c cq -n '__fish_seen_subcommand_from trim' -l force -d 'Drop messages too that are left for a name'
complete -c cq -n '__fish_seen_subcommand_from trim' -l dry-run -d 'Print what it would remove, and change nothing'
complete -c cq -n '__fish_seen_subcommand_from repair' -l dry-run -d 'Print what it would do, and change nothing'
complete -c cq -n '__fish_seen_subcommand_from stat' -l json -d 'As an object of JSON, on one line'
complete -c cq -n '__fish_seen_subcommand_from log' -l for -x -d 'End after this many seconds too'
complete -c cq -n '__fish_seen_subcommand_from log' -l syncs -x -a '0 1 2' -d 'The syncs before the index of a line is printed'
complete -c cq -n '__fish_seen_subcommand_from log' -l checkpoint -x -d 'Save the images each time that this many bytes of lines came'
complete -c cq -n '__fish_seen_subcommand_from name' -l at -x -d 'The position of a name that is added'
complete -c cq -n '__fish_seen_subcommand_from name' -l to -x -d 'The position to which a name moves'
for command in init new write log read take drop trim check stat dump salvage repair migrate name
    complete -c cq -n "__cq_arguments $command 0" -a '(__fish_complete_directories)'
end
complete -c cq -n '__cq_arguments cycle 0; or __cq_arguments init 1' -a 'daily hourly minutely'
complete -c cq -n '__cq_arguments cycle 2; or __cq_arguments write 1' -a '(date +%s%3N)'
complete -c cq -n '__cq_arguments write 1' -a now -d 'The time of the clock'
complete -c cq -n '__cq_arguments name 1' -a 'list add remove move'
complete -c cq -n '__cq_arguments name 2; and __fish_seen_subcommand_from remove move' -a "(sed -n 's/^name \([A-Za-z0-9_.-]*\) [0-9]*\$/\1/p' (__cq_folder)/queue.cqc 2>/dev/null)"
complete -c cq -n '__cq_arguments take 1' -a "(sed -n 's/^name \([A-Za-z0-9_.-]*\) [0-9]*\$/\1/p' (__cq_folder)/queue.cqc 2>/dev/null)"
complete -c cq -n '__cq_arguments dump 1; or __cq_arguments salvage 1; or __cq_arguments repair 1' -a '(path basename (__cq_folder)/*.cqi 2>/dev/null)'
