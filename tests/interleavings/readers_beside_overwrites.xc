# The second job overwrites a file in two calls, and keeps a sync for its commit. Where it is revoked between them its bytes
# go back, and behind its commit the reader waits for the sync.
file a "aaaa"
job reader
tx
x_open a -> f
x_read f 4 -> d
commit
end
job writer
tx
x_open a -> f
x_write_ovr f "bb"
x_write_ovr f "bb"
x_sync f slot s
commit
end
