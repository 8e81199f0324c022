# The first job aborts what it stored, so the other job reads 1 and 2.
word 0 1
word 1 2
job aborting
tx
store 0 5
store 1 5
abort
commit
end
job reader
tx
load 0 -> a
load 1 -> b
store 2 a
store 3 b
commit
end
