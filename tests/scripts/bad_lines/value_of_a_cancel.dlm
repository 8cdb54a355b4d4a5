# A cancel gives no value. The line is named and nothing is run.
cluster 2 4
start 0
submit 0 1 cancel 1 2 3 value 0123456789abcdef0123456789abcdef
show 0
