# Above a floor, too, a host takes its least ballot. Host 2 has the floor 3 and takes 19. It passes host 1, which saw the 17 of host 0 and took 18.
cluster 1 2
start 0
start 1
start 2
recover 0 1
step 0 3
fail 0 00
recover 2 1
step 2 3
fail 2 00
submit 2 1 enqueue 3 1 3 EX db
step 2 3
recover 0 1
step 0 10
recover 1 1
step 1 10
step 2 14
