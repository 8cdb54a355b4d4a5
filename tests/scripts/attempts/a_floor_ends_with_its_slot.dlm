# A floor is that of one slot. Host 0 has the floor 1 on slot 0, and there its next ballot is 17.
# On slot 1 its first one is 1, so host 1 outruns it by ballot 2.
cluster 1 3
start 0
start 1
recover 0 1
step 0 3
fail 0 00
submit 0 1 enqueue 1 1 1 EX db
step 0 17
submit 0 1 enqueue 1 2 2 CR b
step 0 3
submit 1 1 enqueue 2 1 3 CR b
step 1 20
step 0 7
step 1 7
step 0 7
step 1 7
