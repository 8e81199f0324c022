# Eight jobs, each with a word of its own: nobody meets anybody.
job j0
tx
load 0 -> x
store 0 x + 1
commit
tx
load 0 -> x
store 0 x + 2
commit
tx
load 0 -> x
store 0 x + 3
commit
tx
load 0 -> x
store 0 x + 4
commit
tx
load 0 -> x
store 0 x + 5
commit
tx
load 0 -> x
store 0 x + 6
commit
tx
load 0 -> x
store 0 x + 7
commit
tx
load 0 -> x
store 0 x + 8
commit
tx
load 0 -> x
store 0 x + 9
commit
tx
load 0 -> x
store 0 x + 10
commit
end
job j1
tx
load 1 -> x
store 1 x + 1
commit
tx
load 1 -> x
store 1 x + 2
commit
tx
load 1 -> x
store 1 x + 3
commit
tx
load 1 -> x
store 1 x + 4
commit
tx
load 1 -> x
store 1 x + 5
commit
tx
load 1 -> x
store 1 x + 6
commit
tx
load 1 -> x
store 1 x + 7
commit
tx
load 1 -> x
store 1 x + 8
commit
tx
load 1 -> x
store 1 x + 9
commit
tx
load 1 -> x
store 1 x + 10
commit
end
job j2
tx
load 2 -> x
store 2 x + 1
commit
tx
load 2 -> x
store 2 x + 2
commit
tx
load 2 -> x
store 2 x + 3
commit
tx
load 2 -> x
store 2 x + 4
commit
tx
load 2 -> x
store 2 x + 5
commit
tx
load 2 -> x
store 2 x + 6
commit
tx
load 2 -> x
store 2 x + 7
commit
tx
load 2 -> x
store 2 x + 8
commit
tx
load 2 -> x
store 2 x + 9
commit
tx
load 2 -> x
store 2 x + 10
commit
end
job j3
tx
load 3 -> x
store 3 x + 1
commit
tx
load 3 -> x
store 3 x + 2
commit
tx
load 3 -> x
store 3 x + 3
commit
tx
load 3 -> x
store 3 x + 4
commit
tx
load 3 -> x
store 3 x + 5
commit
tx
load 3 -> x
store 3 x + 6
commit
tx
load 3 -> x
store 3 x + 7
commit
tx
load 3 -> x
store 3 x + 8
commit
tx
load 3 -> x
store 3 x + 9
commit
tx
load 3 -> x
store 3 x + 10
commit
end
job j4
tx
load 4 -> x
store 4 x + 1
commit
tx
load 4 -> x
store 4 x + 2
commit
tx
load 4 -> x
store 4 x + 3
commit
tx
load 4 -> x
store 4 x + 4
commit
tx
load 4 -> x
store 4 x + 5
commit
tx
load 4 -> x
store 4 x + 6
commit
tx
load 4 -> x
store 4 x + 7
commit
tx
load 4 -> x
store 4 x + 8
commit
tx
load 4 -> x
store 4 x + 9
commit
tx
load 4 -> x
store 4 x + 10
commit
end
job j5
tx
load 5 -> x
store 5 x + 1
commit
tx
load 5 -> x
store 5 x + 2
commit
tx
load 5 -> x
store 5 x + 3
commit
tx
load 5 -> x
store 5 x + 4
commit
tx
load 5 -> x
store 5 x + 5
commit
tx
load 5 -> x
store 5 x + 6
commit
tx
load 5 -> x
store 5 x + 7
commit
tx
load 5 -> x
store 5 x + 8
commit
tx
load 5 -> x
store 5 x + 9
commit
tx
load 5 -> x
store 5 x + 10
commit
end
job j6
tx
load 6 -> x
store 6 x + 1
commit
tx
load 6 -> x
store 6 x + 2
commit
tx
load 6 -> x
store 6 x + 3
commit
tx
load 6 -> x
store 6 x + 4
commit
tx
load 6 -> x
store 6 x + 5
commit
tx
load 6 -> x
store 6 x + 6
commit
tx
load 6 -> x
store 6 x + 7
commit
tx
load 6 -> x
store 6 x + 8
commit
tx
load 6 -> x
store 6 x + 9
commit
tx
load 6 -> x
store 6 x + 10
commit
end
job j7
tx
load 7 -> x
store 7 x + 1
commit
tx
load 7 -> x
store 7 x + 2
commit
tx
load 7 -> x
store 7 x + 3
commit
tx
load 7 -> x
store 7 x + 4
commit
tx
load 7 -> x
store 7 x + 5
commit
tx
load 7 -> x
store 7 x + 6
commit
tx
load 7 -> x
store 7 x + 7
commit
tx
load 7 -> x
store 7 x + 8
commit
tx
load 7 -> x
store 7 x + 9
commit
tx
load 7 -> x
store 7 x + 10
commit
end
