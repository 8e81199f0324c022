# Twenty jobs: each counts in a word of its own, and twice in one that all share.
job j0
tx
load 0 -> x
store 0 x + 1
commit
tx
load 0 -> x
store 0 x + 1
commit
tx
load 15 -> x
store 15 x + 0
commit
tx
load 0 -> x
store 0 x + 1
commit
tx
load 15 -> x
store 15 x + 1
commit
end
job j1
tx
load 1 -> x
store 1 x + 1
commit
tx
load 1 -> x
store 1 x + 1
commit
tx
load 15 -> x
store 15 x + 1
commit
tx
load 1 -> x
store 1 x + 1
commit
tx
load 15 -> x
store 15 x + 1
commit
end
job j2
tx
load 2 -> x
store 2 x + 1
commit
tx
load 2 -> x
store 2 x + 1
commit
tx
load 15 -> x
store 15 x + 2
commit
tx
load 2 -> x
store 2 x + 1
commit
tx
load 15 -> x
store 15 x + 1
commit
end
job j3
tx
load 3 -> x
store 3 x + 1
commit
tx
load 3 -> x
store 3 x + 1
commit
tx
load 15 -> x
store 15 x + 3
commit
tx
load 3 -> x
store 3 x + 1
commit
tx
load 15 -> x
store 15 x + 1
commit
end
job j4
tx
load 4 -> x
store 4 x + 1
commit
tx
load 4 -> x
store 4 x + 1
commit
tx
load 15 -> x
store 15 x + 4
commit
tx
load 4 -> x
store 4 x + 1
commit
tx
load 15 -> x
store 15 x + 1
commit
end
job j5
tx
load 5 -> x
store 5 x + 1
commit
tx
load 5 -> x
store 5 x + 1
commit
tx
load 15 -> x
store 15 x + 5
commit
tx
load 5 -> x
store 5 x + 1
commit
tx
load 15 -> x
store 15 x + 1
commit
end
job j6
tx
load 6 -> x
store 6 x + 1
commit
tx
load 6 -> x
store 6 x + 1
commit
tx
load 15 -> x
store 15 x + 6
commit
tx
load 6 -> x
store 6 x + 1
commit
tx
load 15 -> x
store 15 x + 1
commit
end
job j7
tx
load 7 -> x
store 7 x + 1
commit
tx
load 7 -> x
store 7 x + 1
commit
tx
load 15 -> x
store 15 x + 7
commit
tx
load 7 -> x
store 7 x + 1
commit
tx
load 15 -> x
store 15 x + 1
commit
end
job j8
tx
load 8 -> x
store 8 x + 1
commit
tx
load 8 -> x
store 8 x + 1
commit
tx
load 15 -> x
store 15 x + 8
commit
tx
load 8 -> x
store 8 x + 1
commit
tx
load 15 -> x
store 15 x + 1
commit
end
job j9
tx
load 9 -> x
store 9 x + 1
commit
tx
load 9 -> x
store 9 x + 1
commit
tx
load 15 -> x
store 15 x + 9
commit
tx
load 9 -> x
store 9 x + 1
commit
tx
load 15 -> x
store 15 x + 1
commit
end
job j10
tx
load 10 -> x
store 10 x + 1
commit
tx
load 10 -> x
store 10 x + 1
commit
tx
load 15 -> x
store 15 x + 10
commit
tx
load 10 -> x
store 10 x + 1
commit
tx
load 15 -> x
store 15 x + 1
commit
end
job j11
tx
load 11 -> x
store 11 x + 1
commit
tx
load 11 -> x
store 11 x + 1
commit
tx
load 15 -> x
store 15 x + 11
commit
tx
load 11 -> x
store 11 x + 1
commit
tx
load 15 -> x
store 15 x + 1
commit
end
job j12
tx
load 12 -> x
store 12 x + 1
commit
tx
load 12 -> x
store 12 x + 1
commit
tx
load 15 -> x
store 15 x + 12
commit
tx
load 12 -> x
store 12 x + 1
commit
tx
load 15 -> x
store 15 x + 1
commit
end
job j13
tx
load 13 -> x
store 13 x + 1
commit
tx
load 13 -> x
store 13 x + 1
commit
tx
load 15 -> x
store 15 x + 13
commit
tx
load 13 -> x
store 13 x + 1
commit
tx
load 15 -> x
store 15 x + 1
commit
end
job j14
tx
load 14 -> x
store 14 x + 1
commit
tx
load 14 -> x
store 14 x + 1
commit
tx
load 15 -> x
store 15 x + 14
commit
tx
load 14 -> x
store 14 x + 1
commit
tx
load 15 -> x
store 15 x + 1
commit
end
job j15
tx
load 0 -> x
store 0 x + 1
commit
tx
load 0 -> x
store 0 x + 1
commit
tx
load 15 -> x
store 15 x + 15
commit
tx
load 0 -> x
store 0 x + 1
commit
tx
load 15 -> x
store 15 x + 1
commit
end
job j16
tx
load 1 -> x
store 1 x + 1
commit
tx
load 1 -> x
store 1 x + 1
commit
tx
load 15 -> x
store 15 x + 16
commit
tx
load 1 -> x
store 1 x + 1
commit
tx
load 15 -> x
store 15 x + 1
commit
end
job j17
tx
load 2 -> x
store 2 x + 1
commit
tx
load 2 -> x
store 2 x + 1
commit
tx
load 15 -> x
store 15 x + 17
commit
tx
load 2 -> x
store 2 x + 1
commit
tx
load 15 -> x
store 15 x + 1
commit
end
job j18
tx
load 3 -> x
store 3 x + 1
commit
tx
load 3 -> x
store 3 x + 1
commit
tx
load 15 -> x
store 15 x + 18
commit
tx
load 3 -> x
store 3 x + 1
commit
tx
load 15 -> x
store 15 x + 1
commit
end
job j19
tx
load 4 -> x
store 4 x + 1
commit
tx
load 4 -> x
store 4 x + 1
commit
tx
load 15 -> x
store 15 x + 19
commit
tx
load 4 -> x
store 4 x + 1
commit
tx
load 15 -> x
store 15 x + 1
commit
end
