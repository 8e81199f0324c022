word 0 100
job one
tx
load 0 -> x
store 0 x + 5
commit
end
job two
tx
store 1 7
load 0 -> x
store 0 x + 1
commit
end
