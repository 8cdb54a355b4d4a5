# A line of a space is no empty line. The line is named and nothing is run.
cluster 2 4
start 0
 
show 0
