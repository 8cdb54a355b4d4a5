# CR and CW are granted together; PR has to wait for CW.
cluster 1 8
start 0
submit 0 1 enqueue 1 1 1 CR a
step 0 17
submit 0 1 enqueue 2 1 2 CW a
step 0 17
submit 0 1 enqueue 3 1 3 PR a
step 0 17
show 0
