# Each job stores a word and then looks at the other one's, so each would wait for the other: one of them is revoked.
# options:
# options: --patience 1
job one
tx
store 0 1
load 1 -> x
store 2 x
commit
end
job two
tx
store 1 2
load 0 -> x
store 3 x
commit
end
