# A matrix of 100 rows and 100 columns, each of whose elements is set 10 times.
set matrix [lrepeat 100 [lrepeat 100 0]]
for {set turn 1} {$turn <= 10} {incr turn} {
    for {set i 0} {$i < 100} {incr i} {
        for {set j 0} {$j < 100} {incr j} {
            lset matrix $i $j $turn
        }
    }
}
puts "[llength $matrix] [lindex $matrix 0 0] [lindex $matrix 99 99]"
