# A transaction that only reads sees both stores of the other job or none; the next one writes down what it saw.
job writer
tx
store 0 7
store 1 7
commit
end
job reader
tx
load 0 -> a
load 1 -> b
commit
tx
store 2 a
store 3 b
commit
end
