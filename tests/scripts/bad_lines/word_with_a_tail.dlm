# A line begins with its whole word and no more. The line is named and nothing is run.
cluster 2 4
start 0
started 0
show 0
