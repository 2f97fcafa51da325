# Prints what the completion of opgp for zsh offers behind the words that are given: in a shell of its own, on a terminal
# of its own, as if they were typed with a tabulator. Words: the folder of the file _opgp, and the words as one.
zmodload zsh/zpty
zpty shell zsh -f -i
zpty -w shell "fpath=($1 \$fpath); autoload -Uz compinit; compinit -u -D; bindkey '^I' list-choices; PS1=; echo BE''GIN"
while zpty -r shell line && [[ $line != *BEGIN* ]]; do :; done
zpty -n -w shell "$2"$'\t'
sleep 0.3
zpty -n -w shell $'\x03'$'\n'"echo EN''D"$'\n'
while zpty -r shell line && [[ $line != *END* ]]; do print -r -- "$line"; done
zpty -d shell
