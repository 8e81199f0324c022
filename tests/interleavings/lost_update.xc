# Both jobs add to one word. None of the sums may be lost, so it ends as 111.
# options:
# options: --patience 0
# options: --patience 1
word 0 100
job ten
tx
load 0 -> x
store 0 x + 10
commit
end
job one
tx
load 0 -> x
store 0 x + 1
commit
end
