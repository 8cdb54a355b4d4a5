# There is no such command. The line is named and nothing is run.
cluster 2 4
start 0
submit 0 1 upgrade 1 1 1
show 0
