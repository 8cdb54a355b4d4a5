# A last line needs no line end to be read, and to be refused.
cluster 1 1
show 0
start 0
submit 0 1 status 1 1 1
step 0 17
step 0 0