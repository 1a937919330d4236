# ns-2's CBQ over the classes of `rounds` of docs/authors/COMPARING.md: 8 Mbit/s, a and b with half of it each, c with 1 Mbit/s and the
# first priority. It plays arrivals.tcl, lines `arrive MOMENT NAME LENGTH`, and writes the trace out.tr.
set ns [new Simulator]; set n0 [$ns node]; set n1 [$ns node]
$ns simplex-link $n0 $n1 8Mb 0ms CBQ/WRR; $ns trace-queue $n0 $n1 [open out.tr w]
set link [$ns link $n0 $n1]; set root [new CBQClass]
$root setparams none true 1.0 auto 0 2 0; $link insert $root
foreach {name id allot prio} {a 1 0.5 1 b 2 0.5 1 c 3 0.125 0} {
    set class [new CBQClass]; $class setparams $root false $allot auto $prio 1 0
    $class install-queue [new Queue/DropTail]; $link insert $class; $link bind $class $id
    set udp($name) [new Agent/UDP]; $udp($name) set fid_ $id; $udp($name) set packetSize_ 1500
    set sink [new Agent/Null]; $ns attach-agent $n0 $udp($name); $ns attach-agent $n1 $sink; $ns connect $udp($name) $sink
}
proc arrive {moment name length} {
    set cbr [new Application/Traffic/CBR]; $cbr set packetSize_ $length; $cbr set maxpkts_ 1
    $cbr attach-agent $::udp($name); $::ns at $moment "$cbr start"
}
source arrivals.tcl; $ns at 10 "$ns flush-trace; exit 0"; $ns run
