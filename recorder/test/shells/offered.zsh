# offered.zsh FOLDER LINE: what zsh offers where that line is typed and then a tab, with the folder's functions.
zmodload zsh/zpty
zpty shell 'TERM=xterm zsh -f -i'
zpty -w shell "PROMPT=; autoload -U compinit; fpath=($1 \$fpath); compinit -D -u; echo RE''ADY"
zpty -r -m shell line '*READY*' || exit 1
zpty -w -n shell "$2"$'\t\t'
for look in {1..100}; do
    sleep 0.1
    while zpty -r -t shell part; do told+=$part; done
    [[ $told == *on-report* ]] && break
done
print -r -- "$told"
zpty -d shell
