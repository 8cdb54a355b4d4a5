# Hosts from 8 on are hosts as any others.
cluster 1 1
start 14
