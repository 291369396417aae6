# Completes the words of gtfs(1) in fish. A command is a line that names it, and a line for its folders and for each option.

# Whether the words before the cursor begin with this command, and an option is not among them. The last one counts only
# where it holds its value too, since the word at the cursor may be the value.
function __gtfs_takes -a command option
    set -l words (commandline -opc)
    test "$words[2]" = "$command"
    and not contains -- --$option $words[3..-2]
    and not string match -q -- "--$option=*" $words[3..-1]
end

# Whether no command is named yet.
function __gtfs_begins
    test (count (commandline -opc)) = 1
end

# Whether the command is this one and fewer folders than so many are named. Each option but those of the list takes a value.
function __gtfs_wants_folder -a command most
    set -l words (commandline -opc)
    test "$words[2]" = "$command"; or return
    set -l named 0
    set -l behind_option no
    for word in $words[3..-1]
        if test $behind_option = yes
            set behind_option no
        else if not string match -q -- '-*' $word
            set named (math $named + 1)
        else if not contains -- $word -h --help --interpolate --values --summary --advise; and not string match -q -- '*=*' $word
            set behind_option yes
        end
    end
    test $named -lt $most
end

complete -c gtfs -f
complete -c gtfs -n __gtfs_begins -s h -l help -d 'Print help'
complete -c gtfs -n __gtfs_begins -s V -l version -d 'Print version'

complete -c gtfs -n __gtfs_begins -a check -d 'Print what is wrong with a feed'
complete -c gtfs -n '__gtfs_takes check help' -s h -l help -d 'Print help'
complete -c gtfs -n '__gtfs_takes check values' -l values -d 'Each problem with the value that is wrong, in quotes'
complete -c gtfs -n '__gtfs_takes check summary' -l summary \
    -d 'Of problems with one code, file and column the first alone, with their number'
complete -c gtfs -n '__gtfs_takes check advise' -l advise \
    -d 'Advice on a feed without errors: what is allowed, and yet most often a slip'
complete -c gtfs -n '__gtfs_takes check day' -l day -x -d 'Advise where fewer than seven days of service are left on D'
complete -c gtfs -n '__gtfs_wants_folder check 1' -a '(__fish_complete_directories)'

complete -c gtfs -n __gtfs_begins -a board -d 'Print the departures at a stop, in the order of their times'
complete -c gtfs -n '__gtfs_takes board help' -s h -l help -d 'Print help'
complete -c gtfs -n '__gtfs_takes board zone' -l zone -r -F -d 'The zone file (TZif) of the time zone'
complete -c gtfs -n '__gtfs_takes board stop' -l stop -x -d 'The stop, by its stop_id'
complete -c gtfs -n '__gtfs_takes board from' -l from -x -d 'The first instant of the board'
complete -c gtfs -n '__gtfs_takes board until' -l until -x -d 'The instant before which the board ends'
complete -c gtfs -n '__gtfs_takes board limit' -l limit -x -d 'Print at most N lines; all lines without it'
complete -c gtfs -n '__gtfs_takes board after' -l after -x -d 'Begin after the departure of this key'
complete -c gtfs -n '__gtfs_takes board interpolate' -l interpolate \
    -d 'Fill in missing times, at an even pace between the given ones'
complete -c gtfs -n '__gtfs_wants_folder board 1' -a '(__fish_complete_directories)'

complete -c gtfs -n __gtfs_begins -a boards -d 'Print a board for each line of a file, in the order of the lines'
complete -c gtfs -n '__gtfs_takes boards help' -s h -l help -d 'Print help'
complete -c gtfs -n '__gtfs_takes boards zone' -l zone -r -F -d 'The zone file (TZif) of the time zone'
complete -c gtfs -n '__gtfs_takes boards requests' -l requests -r -F -d 'The file of the requests, one a line'
complete -c gtfs -n '__gtfs_takes boards interpolate' -l interpolate \
    -d 'Fill in missing times, at an even pace between the given ones'
complete -c gtfs -n '__gtfs_wants_folder boards 1' -a '(__fish_complete_directories)'

complete -c gtfs -n __gtfs_begins -a serve -d 'Answer requests from the standard input, line by line'
complete -c gtfs -n '__gtfs_takes serve help' -s h -l help -d 'Print help'
complete -c gtfs -n '__gtfs_takes serve zone' -l zone -r -F -d 'The zone file (TZif) of the time zone'
complete -c gtfs -n '__gtfs_takes serve interpolate' -l interpolate \
    -d 'Fill in missing times, at an even pace between the given ones'
complete -c gtfs -n '__gtfs_wants_folder serve 1' -a '(__fish_complete_directories)'

complete -c gtfs -n __gtfs_begins -a timetable \
    -d 'Print the runs of a route on a date, a sheet for each direction and list of stops'
complete -c gtfs -n '__gtfs_takes timetable help' -s h -l help -d 'Print help'
complete -c gtfs -n '__gtfs_takes timetable route' -l route -x -d 'The route, by its route_id'
complete -c gtfs -n '__gtfs_takes timetable date' -l date -x -d 'The service date of the runs'
complete -c gtfs -n '__gtfs_takes timetable direction' -l direction -x -a '0 1' \
    -d 'Only trips of this direction_id; all trips without it'
complete -c gtfs -n '__gtfs_takes timetable interpolate' -l interpolate \
    -d 'Fill in missing times, at an even pace between the given ones'
complete -c gtfs -n '__gtfs_wants_folder timetable 1' -a '(__fish_complete_directories)'

complete -c gtfs -n __gtfs_begins -a merge -d 'Make one feed of two'
complete -c gtfs -n '__gtfs_takes merge help' -s h -l help -d 'Print help'
complete -c gtfs -n '__gtfs_takes merge near' -l near -x \
    -d 'Make a stop of B one with a stop of A that has its name and lies within N of it'
complete -c gtfs -n '__gtfs_takes merge cutoff' -l cutoff -x -d "Take A's service days before D and B's from D on"
complete -c gtfs -n '__gtfs_wants_folder merge 3' -a '(__fish_complete_directories)'
