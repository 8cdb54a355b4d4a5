# A host that learns its own command from a mark acknowledges it: host 4 carried the vote of host 1 on, and marked it.
cluster 2 1
start 1
start 4
submit 1 255 convert 221 1 5 EX
step 1 30
recover 4 1
step 4 7
step 4 27
mark 4 0
step 4 8
step 1 10
