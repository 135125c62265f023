# Reads options as many scripts do: -name value, -loud, and -- before the other words.
set name world
set loud 0
set rest $argv
while {[llength $rest] > 0} {
    set rest [lassign $rest word]
    switch -glob -- $word {
        -name {
            set rest [lassign $rest name]
        }
        -loud {
            set loud 1
        }
        -- break
        -* {
            puts stderr "options.tcl: unknown option $word"
            exit 2
        }
        default {
            set rest [linsert $rest 0 $word]
            break
        }
    }
}
set greeting "hello $name"
if {$loud} {
    append greeting !
}
puts $greeting
foreach word $rest {
    puts "other word: $word"
}
