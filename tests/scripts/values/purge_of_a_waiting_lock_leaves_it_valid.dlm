# A lock that waits for EX holds nothing: its purge leaves the value valid.
cluster 1 4
start 8
start 0
submit 8 1 enqueue 131 674 59390 EX ax
step 8 15
submit 0 1 enqueue 131 677 59387 EX ax
step 0 34
submit 0 1 purge 129 681 0
step 0 17
show 0
