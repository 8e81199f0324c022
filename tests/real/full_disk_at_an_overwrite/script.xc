# The bytes of `hole` take no room on the disk until they are written, and there is none left.
job main
tx
x_open hole -> f
x_write_ovr f "hello"
x_open full -> g
x_write_ovr g "hello"
x_create new
commit
end
