# Has Ctrl-G complete the line that is typed, once, and puts all that may stand there into a file.
#
#     source completing.zsh COMPLETIONS ROOM     completion from that folder; the file is ROOM/told, a word a line
fpath=($1 $fpath) room=$2
autoload -Uz compinit && compinit -u -d $room/dump
compadd() {
    local -a found
    [[ ${@[1,(i)(-|--)]} != *-(O|A|D)\ * ]] || { builtin compadd "$@"; return; }
    builtin compadd -A found "$@"
    [[ -z $found ]] || print -rl -- $found >>$room/found
    builtin compadd "$@"
}
tell() {
    : >$room/found
    zle complete-word
    mv $room/found $room/told
    BUFFER=
}
zle -N tell
bindkey '^G' tell
PS1='ready> '
