# A line of a look has two words.
cluster 2 8
start 0
look 0
look 0 1
