# Written by tools/pages/write_manual.py from the table of forms.
function __rail_is_asked --description 'Whether the word behind so many words is asked for, of a command of these'
    set -l words (commandline -opc)
    test (count $words) -eq $argv[1]; and contains -- "$words[2]" $argv[2..-1]
end
complete -c rail -f
complete -c rail -n 'test (count (commandline -opc)) -eq 1' -a run -d 'the history of the scene, line by line'
complete -c rail -n 'test (count (commandline -opc)) -eq 1' -a infra -d 'counts, and routes with their lengths'
complete -c rail -n 'test (count (commandline -opc)) -eq 1' -a play -d 'whether a list of moves brings every train inside to its exit'
complete -c rail -n 'test (count (commandline -opc)) -eq 1' -a check -d 'whether a history is lawful to its end, or its first wrong line'
complete -c rail -n 'test (count (commandline -opc)) -eq 1' -a stairs -d 'blocking intervals of the trains, and how long each section is occupied'
complete -c rail -n 'test (count (commandline -opc)) -eq 1' -a report -d 'how late the trains are, and for which causes they are held'
complete -c rail -n 'test (count (commandline -opc)) -eq 1' -a capacity -d 'the trains pushed together on a line, and how full it is'
complete -c rail -n 'test (count (commandline -opc)) -eq 1' -a insert -d 'where further trains like one fit, and what is in the way of each'
complete -c rail -n 'test (count (commandline -opc)) -eq 1' -a edit -d 'the scene after the edits, as a scene file'
complete -c rail -n 'test (count (commandline -opc)) -eq 1' -a migrate -d 'the scene, as a scene file of the newest version'
complete -c rail -n 'test (count (commandline -opc)) -eq 1' -a reroute -d 'whether trains could take other routes from where they stand'
complete -c rail -n 'test (count (commandline -opc)) -eq 1' -a save -d 'a snapshot of the run after so many of its lines'
complete -c rail -n 'test (count (commandline -opc)) -eq 1' -a resume -d 'the lines of a run that follow those of a snapshot'
complete -c rail -n 'test (count (commandline -opc)) -eq 1' -a scene -d 'the made-up scene of the number, as a scene file'
complete -c rail -n 'test (count (commandline -opc)) -eq 1' -a gen -d 'a run of that scene, told in one line'
complete -c rail -n 'test (count (commandline -opc)) -eq 1' -l help -d 'all forms'
complete -c rail -n 'test (count (commandline -opc)) -eq 1' -l version -d 'the version'
complete -c rail -n '__rail_is_asked 2 run infra play check stairs report edit migrate reroute resume' -k -a '(__fish_complete_suffix .toml)'
complete -c rail -n '__rail_is_asked 5 capacity' -k -a '(__fish_complete_suffix .toml)'
complete -c rail -n '__rail_is_asked 6 insert' -k -a '(__fish_complete_suffix .toml)'
complete -c rail -n '__rail_is_asked 3 save' -k -a '(__fish_complete_suffix .toml)'
complete -c rail -n '__rail_is_asked 3 run check stairs report resume' -k -a '(__fish_complete_suffix .csv)'
complete -c rail -n '__rail_is_asked 3 run check stairs report resume' -a - -d 'no file'
complete -c rail -n '__rail_is_asked 6 capacity' -k -a '(__fish_complete_suffix .csv)'
complete -c rail -n '__rail_is_asked 6 capacity' -a - -d 'no file'
complete -c rail -n '__rail_is_asked 7 insert' -k -a '(__fish_complete_suffix .csv)'
complete -c rail -n '__rail_is_asked 7 insert' -a - -d 'no file'
complete -c rail -n '__rail_is_asked 4 save' -k -a '(__fish_complete_suffix .csv)'
complete -c rail -n '__rail_is_asked 4 save' -a - -d 'no file'
complete -c rail -n '__rail_is_asked 4 run check stairs report resume' -F
complete -c rail -n '__rail_is_asked 4 run check stairs report resume' -a - -d 'no file'
complete -c rail -n '__rail_is_asked 7 capacity' -F
complete -c rail -n '__rail_is_asked 7 capacity' -a - -d 'no file'
complete -c rail -n '__rail_is_asked 8 insert' -F
complete -c rail -n '__rail_is_asked 8 insert' -a - -d 'no file'
complete -c rail -n '__rail_is_asked 5 save' -F
complete -c rail -n '__rail_is_asked 5 save' -a - -d 'no file'
complete -c rail -n '__rail_is_asked 3 play reroute' -F
complete -c rail -n '__rail_is_asked 5 check' -F
complete -c rail -n '__rail_is_asked 3 edit' -F
complete -c rail -n '__rail_is_asked 4 reroute' -F
complete -c rail -n '__rail_is_asked 5 resume' -F
