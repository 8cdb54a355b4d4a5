# A release of a CW lock stores nothing.
cluster 1 4
start 11
submit 11 1 enqueue 1 7 4 CW a
step 11 17
submit 11 1 enqueue 2 2 2 NL a
step 11 17
submit 11 1 release 1 34 4 value 02020202020202020202020202020202
step 11 17
show 11
