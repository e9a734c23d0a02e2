# Completion of mic-check for fish: put this file into ~/.config/fish/completions.
complete -c mic-check -l machine -x -a mic1 -d 'the machine'
