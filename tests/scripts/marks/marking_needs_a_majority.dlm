# A marking without a majority of the disks is refused: the only disk has crashed.
cluster 1 1
start 4
submit 4 1 enqueue 1 2 4 EX a
step 4 17
mark 4 0
step 4 1
crash 0 a5
step 4 1
