# A look of a stopped host does not apply: the host is idle once it has started.
cluster 1 2
look 3
start 3
step 3 2
look 3
step 3 2
