# An array that counts how often each of 1,000 remainders comes.
for {set i 0} {$i < 100000} {incr i} {
    incr count([expr {$i * 7 % 1000}])
}
set total 0
for {set i 0} {$i < 1000} {incr i} {
    incr total $count($i)
}
puts $total
