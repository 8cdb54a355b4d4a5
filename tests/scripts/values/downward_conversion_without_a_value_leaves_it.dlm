# A conversion downward that gives no value leaves the one that is there.
cluster 1 4
start 5
submit 5 1 enqueue 1 2 4 PW a
step 5 17
submit 5 1 convert 1 27 4 PW value 02020202020202020202020202020202
step 5 17
submit 5 1 convert 1 33 4 CR
step 5 17
