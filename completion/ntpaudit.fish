# Completion of the command lines of ntpaudit and ntpaudit-dossier for fish, from what their own help says.

function __ntpaudit_help
    set -l words (commandline -opc)
    set -l program (path basename $words[1])
    set -q words[2]; and test $words[2] != help; and set -l of $words[2]
    env COLUMNS=1000 $program help $of 2>/dev/null
end

for program in ntpaudit ntpaudit-dossier
    complete -c $program -n '__fish_is_nth_token 1; or __fish_seen_subcommand_from help' -f -a \
        '(__ntpaudit_help | string replace -rf "^ {2,4}([a-z]+)  +(.*)" "\$1\t\$2")'
    complete -c $program -n 'string match -q -- "-*" (commandline -ct)' -a \
        '(__ntpaudit_help | string replace -rf "^ {2,6}(?:-.(?: [A-Z]+)?, )?(--[a-z-]+)(?:.*?  +(.*)|.*)" "\$1\t\$2")'
end
