#!/usr/bin/env bash
# Prints a script of a million events: host 0 fills a log of 4096 slots over three disks, other hosts learn it.
set -euo pipefail

awk 'BEGIN {
    print "cluster 3 4096"
    print "start 0"
    split("NL CR CW PR PW EX", modes, " ")
    for (slot = 0; slot < 4096; slot++) {
        turn = int(slot / 2)
        client = turn % 32
        request = 2 * int(turn / 32) + 1 + slot % 2
        lock = turn % 200 + 1
        if (slot % 2 == 0) print "submit 0 1 enqueue", client, request, lock, modes[turn % 6 + 1], "name" turn % 10
        else print "submit 0 1 release", client, request, lock
        print "step 0 51"
    }
    events = 1 + 4096 * 52
    for (host = 1; host <= 4; host++) {
        print "start", host
        print "recover", host, 1
        events += 2
        for (left = 4096 * 51; left > 0 && events < 1000000; left -= steps) {
            steps = left < 100000 ? left : 100000
            if (events + steps > 1000000) steps = 1000000 - events
            print "step", host, steps
            events += steps
        }
    }
}'
