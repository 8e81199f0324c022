# The first job is to store what both others look at. All of them may look together, and it waits for whoever is younger.
# turns: 5
word 0 5
job writer
tx
load 0 -> x
store 0 x + 1
commit
end
job left
tx
load 0 -> x
store 1 x
commit
end
job right
tx
load 0 -> x
store 2 x
commit
end
