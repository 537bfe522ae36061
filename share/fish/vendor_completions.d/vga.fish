# Completes the words of vga in fish.

# Whether the command before the cursor is one of these; without a name, whether none stands there yet.
function __vga_command
    set -l words (commandline -opc)
    set -e words[1]
    for word in $words
        if not string match -q -- '-*' "$word"
            contains -- "$word" $argv
            return
        end
    end
    test -z "$argv"
end

# The commands, each with what it does.
function __vga_commands
    printf '%s\t%s\n' \
        asm 'Assembles the text of a script, and writes its binary form' \
        dis 'Prints a script as text on standard output' \
        run 'Runs a script, and writes its report on standard output' \
        go 'Assembles the text of a script, and runs it as `run` does' \
        help 'Print this message or the help of the given subcommand(s)'
end

# Offers files, those with an ending first. Of --option=value it completes the value alone.
function __vga_files
    __fish_complete_suffix (commandline -ct | string replace -r -- '^--[^=]*=' '') $argv[1]
end

complete -c vga -f
complete -c vga -n '__vga_command; or __vga_command help' -a '(__vga_commands)'
complete -c vga -n '__vga_command asm dis run go' -F
complete -c vga -n '__vga_command run go' -l fonts -x -k -a '(__vga_files .fnt)' -d 'The font file, of 9,728 bytes'
complete -c vga -n '__vga_command run go' -l until -x -d 'Stops after N steps, and shows the card'
complete -c vga -n '__vga_command; or __vga_command asm dis run go' -s h -l help -d 'Print help'
