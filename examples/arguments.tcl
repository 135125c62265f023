# Prints the name of the script, and its arguments with their numbers.
puts "script: $argv0"
puts "arguments: $argc"
set number 0
foreach argument $argv {
    incr number
    puts "$number: $argument"
}
