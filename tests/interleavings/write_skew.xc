# Each job clears a word of its own where both words together have enough. One after another, only the first one does.
word 0 100
word 1 100
job left
tx
load 0 -> a
load 1 -> b
let sum a + b
abort if sum < 150
store 0 0
commit
end
job right
tx
load 0 -> a
load 1 -> b
let sum a + b
abort if sum < 150
store 1 0
commit
end
