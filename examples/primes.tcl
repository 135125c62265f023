# Prints the primes below a bound, which is the first argument or 50.
set bound 50
if {$argc > 0} {
    set bound [lindex $argv 0]
}
set primes {}
for {set n 2} {$n < $bound} {incr n} {
    set prime 1
    foreach p $primes {
        if {$p * $p > $n} break
        if {$n % $p == 0} {
            set prime 0
            break
        }
    }
    if {$prime} {
        lappend primes $n
    }
}
puts $primes
