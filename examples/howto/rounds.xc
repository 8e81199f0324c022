# Two jobs that take turns.
job a
tx
store 0 1
commit
tx
store 0 2
commit
end
job b
tx
store 1 1
commit
tx
store 1 2
commit
end
