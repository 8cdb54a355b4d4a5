# Whoever is forgotten begins anew: a request of before is carried out again. A client may forget itself, and one that nobody knows.
cluster 1 17
start 0
submit 0 1 enqueue 1 5 1 EX a
step 0 17
submit 0 1 release 1 6 1
step 0 17
submit 0 1 enqueue 1 5 1 EX a
step 0 17
submit 0 1 forget 2 1 1
step 0 17
submit 0 1 enqueue 1 5 1 EX a
step 0 17
submit 0 1 release 1 6 1
step 0 17
submit 0 1 forget 2 1 1
step 0 17
submit 0 1 status 1 6 1
step 0 17
submit 0 1 forget 1 7 1
step 0 17
submit 0 1 forget 1 7 1
step 0 17
submit 0 1 status 1 1 1
step 0 17
submit 0 1 forget 2 2 200
step 0 17
submit 0 1 forget 2 2 1
step 0 17
submit 0 1 status 1 1 1
step 0 17
submit 0 1 forget 1 1 2
step 0 17
submit 0 1 forget 1 2 2
step 0 17
submit 0 1 status 2 1 1
step 0 17
show 0
