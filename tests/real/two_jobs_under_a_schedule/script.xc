# The reader meets the name that the writer makes, and opens the file at its second attempt.
job writer
tx
x_create a -> f
x_write_seq f "hello"
commit
end
job reader
tx
x_open a -> f
x_read f 9
commit
end
