# The producer's commit starts the consumer, so the data is there.
pipe p
job producer
tx
x_write_pipe p "hello"
x_thread_create consumer
commit
end
body consumer
tx
x_read_pipe p 5 -> d
require
commit
end
