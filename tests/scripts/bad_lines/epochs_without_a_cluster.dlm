# The word alone is no line.
 epochs
