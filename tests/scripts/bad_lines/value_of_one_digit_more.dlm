# A value has exactly thirty-two digits. The line is named and nothing is run.
cluster 2 4
start 0
submit 0 1 release 1 2 3 value 0123456789abcdef0123456789abcdef0
show 0
