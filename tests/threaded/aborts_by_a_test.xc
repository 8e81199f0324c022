# Four jobs that take from one word while there is something; an attempt to take more aborts itself.
word 0 10
job j0
tx
load 0 -> x
abort if x < 3
let x x - 3
store 0 x
load 1 -> y
store 1 y + 3
commit
tx
load 0 -> x
abort if x < 3
let x x - 3
store 0 x
load 1 -> y
store 1 y + 3
commit
tx
load 0 -> x
abort if x < 3
let x x - 3
store 0 x
load 1 -> y
store 1 y + 3
commit
end
job j1
tx
load 0 -> x
abort if x < 3
let x x - 3
store 0 x
load 2 -> y
store 2 y + 3
commit
tx
load 0 -> x
abort if x < 3
let x x - 3
store 0 x
load 2 -> y
store 2 y + 3
commit
tx
load 0 -> x
abort if x < 3
let x x - 3
store 0 x
load 2 -> y
store 2 y + 3
commit
end
job j2
tx
load 0 -> x
abort if x < 3
let x x - 3
store 0 x
load 3 -> y
store 3 y + 3
commit
tx
load 0 -> x
abort if x < 3
let x x - 3
store 0 x
load 3 -> y
store 3 y + 3
commit
tx
load 0 -> x
abort if x < 3
let x x - 3
store 0 x
load 3 -> y
store 3 y + 3
commit
end
job j3
tx
load 0 -> x
abort if x < 3
let x x - 3
store 0 x
load 4 -> y
store 4 y + 3
commit
tx
load 0 -> x
abort if x < 3
let x x - 3
store 0 x
load 4 -> y
store 4 y + 3
commit
tx
load 0 -> x
abort if x < 3
let x x - 3
store 0 x
load 4 -> y
store 4 y + 3
commit
end
