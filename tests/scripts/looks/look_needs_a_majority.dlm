# With two of three disks lost a look learns what the third one's marks tell, and is then refused. What a host had learned stands.
cluster 3 2
start 0
submit 0 1 enqueue 1 1 1 EX db
step 0 51
mark 0 0
step 0 27
gone 0
gone 2
start 1
look 1
step 1 7
show 1
look 0
step 0 4
show 0
