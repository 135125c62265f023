# Choosing a branch by a word, exactly and by pattern.
set words {red green blue yellow other}
set counts {0 0 0 0}
for {set i 0} {$i < 4000} {incr i} {
    switch [lindex $words [expr {$i % 5}]] {
        red {lset counts 0 [expr {[lindex $counts 0] + 1}]}
        green - blue {lset counts 1 [expr {[lindex $counts 1] + 1}]}
        default {lset counts 2 [expr {[lindex $counts 2] + 1}]}
    }
    switch -glob [lindex $words [expr {$i % 5}]] {
        *e* {lset counts 3 [expr {[lindex $counts 3] + 1}]}
    }
}
puts $counts
