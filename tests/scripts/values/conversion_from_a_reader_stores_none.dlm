# A conversion from PR is never downward: the value that it gives is dropped.
cluster 1 2
start 2
submit 2 1 enqueue 1 1 4 PR a
step 2 17
submit 2 1 convert 1 4 4 CW value 02020202020202020202020202020202
step 2 17
