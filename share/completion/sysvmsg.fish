# Completes the command lines of sysvmsg(1), sysvmsg-run(1), sysvmsg-work(1) and sysvmsg-serve(8) in fish. Other words, as
# PATH, complete to file names.

# Whether the command is one of these words.
function __sysvmsg_is
    set -l words (commandline -opc)
    set -q words[2]; and contains -- $words[2] $argv
end

# Whether no command has been typed yet.
function __sysvmsg_is_bare
    test (count (commandline -opc)) -eq 1
end

# Whether the argument is the number of words before the one to complete.
function __sysvmsg_has_words
    test (count (commandline -opc)) -eq $argv[1]
end

# Whether -- stands before the word to complete, which is a program or one of its words then.
function __sysvmsg_is_in_command
    contains -- -- (commandline -opc)
end

complete -c sysvmsg -e
complete -c sysvmsg -s h -l help -d 'Print help'
complete -c sysvmsg -s V -l version -d 'Print version'

set -l bare -c sysvmsg -n __sysvmsg_is_bare -f
complete $bare -a serve -d 'Serve message queues on a Unix socket'
complete $bare -a snd -d 'Send a message'
complete $bare -a rcv -d 'Receive a message and print its body'
complete $bare -a ipcs -d 'Print a table of the queues'
complete $bare -a ipcrm -d 'Remove a queue, or all'
complete $bare -a ipcmk -d 'Make a queue and print its identifier'
complete $bare -a save -d 'Print queues and take their messages'
complete $bare -a load -d 'Make the queues that save printed'
complete $bare -a stats -d 'Print the state of a server'
complete $bare -a script -d 'Run the script on standard input'
complete $bare -a help -d 'Print the help of a command'
complete -c sysvmsg -n '__sysvmsg_is help' -f
complete -c sysvmsg -n '__sysvmsg_is help; and __sysvmsg_has_words 2' -a 'serve snd rcv ipcs ipcrm ipcmk save load stats script'

complete -c sysvmsg -n '__sysvmsg_is snd rcv ipcs ipcrm ipcmk' -l stderr -d 'Print errors on standard error'

set -l clients -c sysvmsg -n '__sysvmsg_is snd rcv ipcs ipcrm ipcmk save load'
complete $clients -l me -d 'Your own IDs by default'
complete $clients -l uid -x -d "The caller's user ID"
complete $clients -l gid -x -d "The caller's group ID"
complete $clients -l pid -x -d "The caller's process ID"

# The options of a server, which sysvmsg-serve takes after its PATH.
function __sysvmsg_complete_server
    complete $argv -l mode -x -d 'The mode of the socket'
    complete $argv -l replace -d 'Remove PATH first if no server listens there'
    complete $argv -l as -r -d 'Create one more socket, for one user'
    complete $argv -l no-main -d 'Create only the sockets of --as'
    complete $argv -l blocks -x -d 'The number of 64-byte blocks, 128 to 65536'
    complete $argv -l workers -x -d 'The number of threads, 1 to 16'
    complete $argv -l at-once -x -d 'The maximum number of sessions at once, 1 to 16384'
    complete $argv -l sessions -x -d 'End after this number of sessions'
    complete $argv -l idle -x -d 'End a session that sends no request for this time'
    complete $argv -l stall -x -d 'End a session whose request or reply takes longer'
    complete $argv -l drain -x -d 'End the sessions left this long after the last accept'
    complete $argv -l hold -d 'Let clients hold messages that come back if they are not done'
    complete $argv -l stats -r -d 'Show the state on a second socket'
end

complete -c sysvmsg-serve -e
__sysvmsg_complete_server -c sysvmsg -n '__sysvmsg_is serve'
set -l launcher -c sysvmsg-serve -n 'not __sysvmsg_has_words 1; and not __sysvmsg_is_in_command'
__sysvmsg_complete_server $launcher
complete $launcher -l users -x -a '(__fish_complete_groups)' -d 'Create a socket for each of these users'
complete $launcher -l run -r -d 'The directory for the sockets of users'
complete $launcher -l state -r -d 'Load the queues from this file, and save them to it'
complete -c sysvmsg -n '__sysvmsg_is serve' -l until-eof -d 'End once standard input has ended'
complete -c sysvmsg -n '__sysvmsg_is serve' -l alone -r -d 'A socket for one session before all others, and one after'

set -l snd -c sysvmsg -n '__sysvmsg_is snd'
complete $snd -l stdin -d 'Send the bytes of standard input'
complete $snd -l lines -d 'Send each line of standard input'
complete $snd -l json -d 'Send the message in each line of standard input, a JSON object'
complete $snd -l progress -d 'Report how many lines were sent'
complete $snd -l type -x -d 'The type of the message'
complete $snd -l nowait -d 'Fail with EAGAIN if there is no room'
complete $snd -l wait -x -d 'Wait at most this time for room'

set -l rcv -c sysvmsg -n '__sysvmsg_is rcv'
complete $rcv -l type -x -d 'Take the first message of this type'
complete $rcv -l upto -x -d 'Take the first of the lowest type up to this'
complete $rcv -l except -x -d 'Take the first of any other type'
complete $rcv -l count -x -d 'Receive this number of messages'
complete $rcv -l ahead -x -d 'Request up to this number of messages before they come'
complete $rcv -l follow -d 'Receive messages until interrupted'
complete $rcv -l purge -d 'Take all messages and print their number'
complete $rcv -l hold -d 'Take each message only once it is printed'
complete $rcv -l show-type -d 'Print the type before the body'
complete $rcv -l raw -d 'Print no newline after the body'
complete $rcv -s 0 -l zero -d 'End the body with a zero byte'
complete $rcv -l json -d 'Print a JSON object with the type and the body'
complete $rcv -l create -d 'Create the queue if there is none'
complete $rcv -l mode -x -d 'The mode of a queue that is created'
complete $rcv -l size -x -d 'The largest body to accept'
complete $rcv -l nowait -d 'Fail with ENOMSG if there is none'
complete $rcv -l wait -x -d 'Wait at most this time for a message'
complete $rcv -l noerror -d 'Cut a longer body'

complete -c sysvmsg -n '__sysvmsg_is ipcs' -s i -x -d 'Show all attributes of one queue'
complete -c sysvmsg -n '__sysvmsg_is ipcs' -l json -d 'Print a JSON object per queue'
complete -c sysvmsg -n '__sysvmsg_is ipcs' -l wait -x -d 'Wait for each reply at most this time'

complete -c sysvmsg -n '__sysvmsg_is ipcrm' -s q -x -d 'The identifier of the queue'
complete -c sysvmsg -n '__sysvmsg_is ipcrm' -s Q -x -d 'The key of the queue'
complete -c sysvmsg -n '__sysvmsg_is ipcrm' -l all -d 'Remove each queue that the caller may remove'
complete -c sysvmsg -n '__sysvmsg_is ipcrm' -l wait -x -d 'Wait for each reply at most this time'

complete -c sysvmsg -n '__sysvmsg_is ipcmk' -l mode -x -d 'The mode of the queue'
complete -c sysvmsg -n '__sysvmsg_is ipcmk' -l qbytes -x -d 'The maximum number of queued bytes'
complete -c sysvmsg -n '__sysvmsg_is ipcmk' -l wait -x -d 'Wait for each reply at most this time'

set -l save -c sysvmsg -n '__sysvmsg_is save'
complete $save -l key -x -d 'Save only the queue of this key'
complete $save -l type -x -d 'Take messages of this type'
complete $save -l upto -x -d 'Take messages of types up to this one'
complete $save -l except -x -d 'Take messages of any other type'
complete $save -l nosync -d 'Do not sync the file'
complete $save -l wait -x -d 'Wait for each reply at most this time'

set -l load -c sysvmsg -n '__sysvmsg_is load'
complete $load -l from -x -d 'Begin at this line'
complete $load -l into -d 'Use a queue that has the key already'
complete $load -l adopt -d 'Make queues of other creators too'
complete $load -l nowait -d 'Fail with EAGAIN if there is no room'
complete $load -l wait -x -d 'Wait at most this time for room'

complete -c sysvmsg -n '__sysvmsg_is stats' -l json -d 'Print a JSON object'
complete -c sysvmsg -n '__sysvmsg_is stats' -l stderr -d 'Print errors on standard error'
complete -c sysvmsg -n '__sysvmsg_is stats' -l wait -x -d 'Wait for each reply at most this time'

# The second word of sysvmsg-run is a program, and those after it are the program's own.
complete -c sysvmsg-run -e
complete -c sysvmsg-run -n '__sysvmsg_has_words 2' -f -a '(__fish_complete_command)'
complete -c sysvmsg-run -n 'test (count (commandline -opc)) -gt 2' -a '(__fish_complete_subcommand --fcs-skip=2)'

complete -c sysvmsg-serve -n '__sysvmsg_has_words 1' -l with -d 'Run a command on the server'
complete -c sysvmsg-serve -n '__sysvmsg_has_words 1' -s h -l help -d 'Print help'
complete -c sysvmsg-serve -n '__sysvmsg_has_words 1' -s V -l version -d 'Print version'
complete -c sysvmsg-serve -n __sysvmsg_is_in_command -f -a '(__fish_complete_command)'

complete -c sysvmsg-work -e
complete -c sysvmsg-work -n '__sysvmsg_has_words 1' -s h -l help -d 'Print help'
complete -c sysvmsg-work -n '__sysvmsg_has_words 1' -s V -l version -d 'Print version'
set -l worker -c sysvmsg-work -n 'not __sysvmsg_is_in_command'
complete $worker -l jobs -x -d 'The number of commands that run at once, 1 to 256'
complete $worker -l type -x -d 'Take the first message of this type'
complete $worker -l upto -x -d 'Take the first of the lowest type up to this'
complete $worker -l seconds -x -d 'End a command after this time, and give its message back'
complete $worker -l pause -x -d 'Keep a message that failed this long'
complete $worker -l failed -x -d 'Send a message that failed to the queue of this key'
complete $worker -l until-empty -d 'End once there is no message'
complete $worker -l create -d 'Create the queues if there are none'
complete $worker -l retry -x -d 'Wait this long for a server'
complete -c sysvmsg-work -n __sysvmsg_is_in_command -f -a '(__fish_complete_command)'
