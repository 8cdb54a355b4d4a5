# A mark leaves the readings of the last beat: the next beat is compared with them.
cluster 1 1
start 3
start 6
beat 6
step 6 9
beat 3
step 3 8
mark 6 0
beat 6
step 6 9
