# A host that learned a slot from a mark has no vote of its own to mark: it makes three calls, drops no disk and answers 0.
cluster 1 1
start 5
start 4
submit 5 1 enqueue 2 4 5 EX a
step 5 17
mark 5 0
step 5 8
recover 4 1
step 4 4
mark 4 0
step 4 3
