# The status of a lock that holds a mode tells the value of its name.
cluster 1 4
start 5
submit 5 1 enqueue 1 2 4 PW a
step 5 17
submit 5 1 enqueue 2 17 5 CR a
step 5 17
submit 5 1 convert 1 27 4 PW value 02020202020202020202020202020202
step 5 17
submit 5 1 status 2 35 5
step 5 17
