# Hosts of looks are numbered 0 to 15.
cluster 2 8
look 15
look 16
