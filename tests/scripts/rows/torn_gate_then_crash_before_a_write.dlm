# As torn_gate_then_crash, with the crash one call earlier: between the row's read and the first write.
cluster 1 2
start 0
submit 0 1 enqueue 1 1 1 EX db
step 0 15
stop 0
start 0
recover 0 1
step 0 3
stop 0
crash 0 00
start 0
recover 0 1
step 0 27
show 0
