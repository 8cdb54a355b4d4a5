# A CR that could be granted waits behind a PW that waits.
cluster 1 8
start 0
submit 0 1 enqueue 1 1 1 CR a
step 0 17
submit 0 1 enqueue 2 1 2 PR a
step 0 17
submit 0 1 enqueue 3 1 3 PW a
step 0 17
submit 0 1 enqueue 4 1 4 CR a
step 0 17
