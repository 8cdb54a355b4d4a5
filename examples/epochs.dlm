# A log without an end: an epoch has eight slots. When it is full, the table is carried over into the next one, and places are counted through.
cluster 3 8 epochs
show 0
submit 0 8 enqueue 1 1 1 EX db
step 0 81
submit 0 8 enqueue 2 1 2 PR db
step 0 200
submit 0 8 status 2 2 1
step 0 200
submit 0 8 status 2 3 1
step 0 200
submit 0 8 status 2 4 1
step 0 200
submit 0 8 status 2 5 1
step 0 200
submit 0 8 status 2 6 1
step 0 200
submit 0 8 status 2 7 1
step 0 200
show 0
# The epoch is full. Host 0 stops while it carries the table over; host 1 knows nothing, and goes on.
submit 0 8 release 1 2 1
step 0 150
stop 0
submit 1 8 purge 9 1 0
step 1 2000
show 1
