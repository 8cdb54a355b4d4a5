# A slot that is learned from a mark uses no try: host 0 has one alone, and comes to the end of the log.
cluster 1 1
start 3
submit 3 1 enqueue 1 5 4 NL a
step 3 17
mark 3 0
step 3 8
start 0
submit 0 1 release 1 13 2
step 0 3
