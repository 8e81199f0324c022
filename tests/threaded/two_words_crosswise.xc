# Four jobs that move numbers between two words, two of them the other way round.
word 0 1000
word 1 1000
job j0
tx
load 0 -> x
load 1 -> y
store 0 x - 1
store 1 y + 1
commit
tx
load 0 -> x
load 1 -> y
store 0 x - 1
store 1 y + 1
commit
tx
load 0 -> x
load 1 -> y
store 0 x - 1
store 1 y + 1
commit
tx
load 0 -> x
load 1 -> y
store 0 x - 1
store 1 y + 1
commit
end
job j1
tx
load 1 -> x
load 0 -> y
store 1 x - 1
store 0 y + 1
commit
tx
load 1 -> x
load 0 -> y
store 1 x - 1
store 0 y + 1
commit
tx
load 1 -> x
load 0 -> y
store 1 x - 1
store 0 y + 1
commit
tx
load 1 -> x
load 0 -> y
store 1 x - 1
store 0 y + 1
commit
end
job j2
tx
load 0 -> x
load 1 -> y
store 0 x - 1
store 1 y + 1
commit
tx
load 0 -> x
load 1 -> y
store 0 x - 1
store 1 y + 1
commit
tx
load 0 -> x
load 1 -> y
store 0 x - 1
store 1 y + 1
commit
tx
load 0 -> x
load 1 -> y
store 0 x - 1
store 1 y + 1
commit
end
job j3
tx
load 1 -> x
load 0 -> y
store 1 x - 1
store 0 y + 1
commit
tx
load 1 -> x
load 0 -> y
store 1 x - 1
store 0 y + 1
commit
tx
load 1 -> x
load 0 -> y
store 1 x - 1
store 0 y + 1
commit
tx
load 1 -> x
load 0 -> y
store 1 x - 1
store 0 y + 1
commit
end
