# A marking visits every disk: it is not over once two of three are marked.
cluster 3 1
start 7
submit 7 1 convert 1 8 4 EX
step 7 51
mark 7 0
step 7 18
