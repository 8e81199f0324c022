# The second job's start finds no block, and it holds `jobs` all the same. The started job has its starter's variable at the commit.
# turns: 5
# options:
# options: --patience 0
job one
tx
load 0 -> x
x_thread_create child
store 0 x + 1
let x x + 10
commit
end
job two
tx
x_thread_create none slot s
load 0 -> x
store 0 x + 2
commit
tx
store 1 ?s
commit
end
body child
tx
load 0 -> y
store 2 x + y
commit
end
