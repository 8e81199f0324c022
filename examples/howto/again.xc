# A reader that finds nothing starts itself again.
pipe p
job reader
tx
x_read_pipe p 5 -> d
require
let got 1
commit
tx
abort if got = 1
x_thread_create reader
commit
end
job writer
tx
x_write_pipe p "hello"
commit
end
