# A busy host takes no mark, and answers nothing to it.
cluster 1 4
start 1
submit 1 1 purge 0 5 1
mark 1 2
