# Completion for fish: commands, options, and a FILE if one is wanted.

# Whether the line is of one of these commands: as a word after trac, or by a link to it.
function __trac_is
    set -l words (commandline -opc)
    set -l name (string replace -r '.*/' '' -- $words[1])
    if test "$name" = trac
        set -q words[2]; and contains -- $words[2] $argv
    else
        contains -- (string replace trac- '' -- $name) $argv
    end
end

# Whether the words before the one that is completed are of trac course, with what this expression takes after that.
function __trac_course
    string match -qr "^(\S*/)?trac[ -]course$argv\$" -- (string join -- ' ' (commandline -opc))
end

set -l every run play walk debug lint lsp dap page course
for it in trac trac-walk trac-lint trac-lsp trac-dap trac-play trac-page trac-course
    complete -c $it -e
    complete -c $it -s h -l help -d 'Print help'
    complete -c $it -s V -l version -n 'not __trac_is dap' -d 'Print the version'
    complete -c $it -x -n '__trac_is run play page' -l budget -d 'How many steps the run may take'
    complete -c $it -x -n '__trac_is run debug walk play' -l journal -d 'How many steps can be gone back over'
    complete -c $it -x -n '__trac_is run debug walk lint play page' -l decimals -a '64 128' \
        -d 'How wide numbers are, in bits'
    complete -c $it -x -n '__trac_is run debug walk lint play' -l memory -d 'Most memory, in bytes or with K, M or G'
    complete -c $it -x -n '__trac_is walk lint' -l keep -d 'About how many MiB these steps may take'
    complete -c $it -n '__trac_is walk' -l prompt -d 'Prompt also where no terminal is'
    complete -c $it -x -n '__trac_is lint' -l steps -d 'How many steps a program may take'
    complete -c $it -r -n '__trac_is lint page' -l input -d 'What is read after FILE'
    complete -c $it -x -n '__trac_is page' -l step -d 'Where the page opens'
    complete -c $it -f -n '__trac_is lsp dap'
    complete -c $it -n '__trac_is lsp' -l stdio -d 'Speak over standard input and output'
    complete -c $it -f -n '__trac_is course'
    complete -c $it -n __trac_course -a '(seq 10) (seq 10).{1,2,3} hint solution check'
    complete -c $it -n '__trac_course " (hint|solution|check)"' -a '(seq 10).{1,2,3}'
    complete -c $it -F -n '__trac_course " check \S+"'
end
complete -c trac -f -n __fish_use_subcommand -a "$every help"
complete -c trac -f -n '__trac_is run'
complete -c trac -f -n '__trac_is help' -a "$every"
