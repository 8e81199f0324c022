# Six jobs that add to one word; no sum may be lost.
word 0 100
job j0
tx
load 0 -> x
store 0 x + 1
commit
tx
load 0 -> x
store 0 x + 1
commit
tx
load 0 -> x
store 0 x + 1
commit
tx
load 0 -> x
store 0 x + 1
commit
tx
load 0 -> x
store 0 x + 1
commit
end
job j1
tx
load 0 -> x
store 0 x + 1
commit
tx
load 0 -> x
store 0 x + 1
commit
tx
load 0 -> x
store 0 x + 1
commit
tx
load 0 -> x
store 0 x + 1
commit
tx
load 0 -> x
store 0 x + 1
commit
end
job j2
tx
load 0 -> x
store 0 x + 1
commit
tx
load 0 -> x
store 0 x + 1
commit
tx
load 0 -> x
store 0 x + 1
commit
tx
load 0 -> x
store 0 x + 1
commit
tx
load 0 -> x
store 0 x + 1
commit
end
job j3
tx
load 0 -> x
store 0 x + 1
commit
tx
load 0 -> x
store 0 x + 1
commit
tx
load 0 -> x
store 0 x + 1
commit
tx
load 0 -> x
store 0 x + 1
commit
tx
load 0 -> x
store 0 x + 1
commit
end
job j4
tx
load 0 -> x
store 0 x + 1
commit
tx
load 0 -> x
store 0 x + 1
commit
tx
load 0 -> x
store 0 x + 1
commit
tx
load 0 -> x
store 0 x + 1
commit
tx
load 0 -> x
store 0 x + 1
commit
end
job j5
tx
load 0 -> x
store 0 x + 1
commit
tx
load 0 -> x
store 0 x + 1
commit
tx
load 0 -> x
store 0 x + 1
commit
tx
load 0 -> x
store 0 x + 1
commit
tx
load 0 -> x
store 0 x + 1
commit
end
