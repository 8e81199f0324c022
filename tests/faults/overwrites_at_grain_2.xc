# Two overwrites that share bytes, and a read between them, two bytes a call. One try is allowed, so a fault of the newer one's
# compensation blocks the older one.
# options: --undo-tries 1
file a "abcdefgh"
grain 2
job main
tx
x_open a -> f
x_write_ovr f "12345"
x_open a -> g
x_read g 2 -> d
x_write_ovr g "XYZ"
abort
commit
end
