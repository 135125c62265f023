# A list changed in place by index: the sieve of Eratosthenes.
set n 1000
set sieve [lrepeat $n 1]
set primes {}
for {set i 2} {$i < $n} {incr i} {
    if {[lindex $sieve $i]} {
        lappend primes $i
        for {set j [expr {$i * $i}]} {$j < $n} {incr j $i} {
            lset sieve $j 0
        }
    }
}
puts "[llength $primes] [lindex $primes end]"
