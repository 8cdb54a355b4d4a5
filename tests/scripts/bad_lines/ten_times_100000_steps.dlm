# A script has a million events at most: the tenth line of steps is one too many, since the host was started. The line is named and nothing is run.
cluster 1 1
start 0
step 0 100000
step 0 100000
step 0 100000
step 0 100000
step 0 100000
step 0 100000
step 0 100000
step 0 100000
step 0 100000
step 0 100000
