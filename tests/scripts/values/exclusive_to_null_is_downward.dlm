# A conversion from EX to NL is downward: its value is stored.
cluster 1 2
start 6
submit 6 1 enqueue 2 2 5 EX a
step 6 17
submit 6 1 convert 2 21 5 NL value 01010101010101010101010101010101
step 6 17
