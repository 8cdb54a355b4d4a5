# Two hosts of greater numbers look while host 0 submits with one try: it is not outrun, and takes the 51 calls that it takes alone.
cluster 3 2
start 0
start 6
start 7
submit 0 1 enqueue 1 1 1 EX db
look 6
look 7
step 0 3
step 6 2
step 7 1
step 0 8
step 6 2
step 0 19
step 7 3
look 7
step 0 6
step 7 4
look 6
look 7
step 0 8
step 7 2
step 6 4
step 0 7
step 7 2
