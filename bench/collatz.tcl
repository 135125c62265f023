# Branches in a loop: the longest Collatz chain below a bound.
set best 0
set at 0
for {set i 1} {$i < 1500} {incr i} {
    set n $i
    set steps 0
    while {$n != 1} {
        if {$n % 2 == 0} {
            set n [expr {$n / 2}]
        } else {
            set n [expr {3 * $n + 1}]
        }
        incr steps
    }
    if {$steps > $best} {
        set best $steps
        set at $i
    }
}
puts "$at $best"
