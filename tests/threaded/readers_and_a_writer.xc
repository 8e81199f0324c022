# Five jobs that read two words and write down what they saw; one that stores to both.
job writer
tx
store 0 1
store 1 1
commit
tx
store 0 2
store 1 2
commit
tx
store 0 3
store 1 3
commit
tx
store 0 4
store 1 4
commit
tx
store 0 5
store 1 5
commit
tx
store 0 6
store 1 6
commit
tx
store 0 7
store 1 7
commit
tx
store 0 8
store 1 8
commit
end
job reader_2
tx
load 0 -> x
load 1 -> y
store 2 x - y
commit
tx
load 0 -> x
load 1 -> y
store 2 x - y
commit
tx
load 0 -> x
load 1 -> y
store 2 x - y
commit
tx
load 0 -> x
load 1 -> y
store 2 x - y
commit
end
job reader_3
tx
load 0 -> x
load 1 -> y
store 3 x - y
commit
tx
load 0 -> x
load 1 -> y
store 3 x - y
commit
tx
load 0 -> x
load 1 -> y
store 3 x - y
commit
tx
load 0 -> x
load 1 -> y
store 3 x - y
commit
end
job reader_4
tx
load 0 -> x
load 1 -> y
store 4 x - y
commit
tx
load 0 -> x
load 1 -> y
store 4 x - y
commit
tx
load 0 -> x
load 1 -> y
store 4 x - y
commit
tx
load 0 -> x
load 1 -> y
store 4 x - y
commit
end
job reader_5
tx
load 0 -> x
load 1 -> y
store 5 x - y
commit
tx
load 0 -> x
load 1 -> y
store 5 x - y
commit
tx
load 0 -> x
load 1 -> y
store 5 x - y
commit
tx
load 0 -> x
load 1 -> y
store 5 x - y
commit
end
job reader_6
tx
load 0 -> x
load 1 -> y
store 6 x - y
commit
tx
load 0 -> x
load 1 -> y
store 6 x - y
commit
tx
load 0 -> x
load 1 -> y
store 6 x - y
commit
tx
load 0 -> x
load 1 -> y
store 6 x - y
commit
end
