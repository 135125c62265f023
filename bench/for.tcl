# Nested loops with arithmetic.
set sum 0
for {set i 0} {$i < 300} {incr i} {
    for {set j 0} {$j < 300} {incr j} {
        set sum [expr {($sum + $i * $j) % 1000003}]
    }
}
puts $sum
