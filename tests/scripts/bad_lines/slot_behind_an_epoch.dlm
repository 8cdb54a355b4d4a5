# A slot is one of an epoch.
cluster 3 8 epochs
mark 0 7
mark 0 8
