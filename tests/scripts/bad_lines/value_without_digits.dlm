# Behind the word value stand its digits. The line is named and nothing is run.
cluster 2 4
start 0
submit 0 1 release 1 2 3 value
show 0
