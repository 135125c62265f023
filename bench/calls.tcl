# A procedure with arguments and a default, called in a loop.
proc add {sum value {step 1}} {
    expr {$sum + $value * $step}
}
set sum 0
for {set i 0} {$i < 100000} {incr i} {
    set sum [add $sum $i]
}
puts $sum
