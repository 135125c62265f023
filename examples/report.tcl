# Sorts records by a number in them, and sums it.
set records {
    {apple 12}
    {"dried fig" 3}
    {pear 40}
    {plum 7}
}
set total 0
foreach record [lsort -integer -decreasing -index 1 $records] {
    lassign $record fruit count
    incr total $count
    puts "$count $fruit"
}
puts "$total in [llength $records] kinds"
