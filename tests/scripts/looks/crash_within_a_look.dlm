# A disk that crashes between the calls of a look is left out for that slot, and asked again for the next one.
cluster 3 2
start 0
submit 0 1 enqueue 1 1 1 EX db
step 0 51
mark 0 0
step 0 27
start 1
look 1
step 1 1
crash 0 00
step 1 7
