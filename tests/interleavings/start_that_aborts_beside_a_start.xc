# The first job's start goes with its transaction, whenever the second one's comes; so the third job is what the second one started.
# turns: 5
# options:
# options: --patience 0
job one
tx
x_thread_create other
load 0 -> x
abort
commit
tx
load 1 -> x
store 0 x + 1
commit
end
job two
tx
let x 7
store 1 3
x_thread_create child
commit
end
body child
tx
load 0 -> y
store 2 x + y
commit
end
body other
tx
store 3 1
commit
end
