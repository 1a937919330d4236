#!/bin/sh
# Plays linux.pcap through Linux's HFSC on a pair of virtual interfaces, and prints the order in which the packets left; it needs root,
# iproute2, tcpreplay and tcpdump. Written after their manual pages, and not run: docs/authors/COMPARING.md says what to compare.
set -eu
tcprewrite --fixlen=pad --infile=linux.pcap --outfile=whole.pcap      # gives cut frames of IP their whole length, and stamps microseconds
ip link add v0 type veth peer name v1
sysctl -w net.ipv6.conf.v0.disable_ipv6=1 net.ipv6.conf.v1.disable_ipv6=1
ip link set v0 up && ip link set v1 up
tc qdisc add dev v0 root handle 1: hfsc default 20
tc class add dev v0 parent 1: classid 1:1 hfsc ls m2 8mbit ul m2 8mbit           # stands for the link
tc class add dev v0 parent 1:1 classid 1:10 hfsc sc m1 4mbit d 5ms m2 1mbit
tc class add dev v0 parent 1:1 classid 1:20 hfsc sc m2 4mbit
tc qdisc add dev v0 parent 1:10 pfifo limit 50 && tc qdisc add dev v0 parent 1:20 pfifo limit 50
tc filter add dev v0 parent 1: protocol ip u32 match ip protocol 17 0xff match ip dport 5004 0xffff flowid 1:10
tcpdump -i v1 --time-stamp-precision=nano -w left.pcap & sleep 1
tcpreplay --intf1=v0 whole.pcap; sleep 1; kill $!
tcpdump -n -v -r left.pcap | grep -o ' id [0-9]*'                     # the order of the packets
