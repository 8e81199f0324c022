# The first job's block loads a word that the other one stores, stores another, and goes back if it finds the first value.
# options:
# options: --patience 0
word 0 1
job going_back
tx
save
load 0 -> x
store 1 x
back if x = 1
keep
load 0 -> y
store 2 y
commit
end
job writer
tx
store 0 2
load 1 -> z
commit
tx
store 0 1
store 3 z
commit
end
