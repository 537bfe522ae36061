# Prints what fish offers at the end of each of the lines that follow the completion's file, with bars between words.
source $argv[1]
for line in $argv[2..]
    set -l offered (complete -C $line | string replace -r \t'.*' '')
    echo (string join -- '|' $offered)
end
