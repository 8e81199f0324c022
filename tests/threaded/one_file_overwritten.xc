# Four jobs that overwrite parts of one file, and take back every second time.
file data "................"
job j0
tx
x_open data -> f
x_seek f 0
x_write_ovr f "a"*4
commit
tx
x_open data -> g
x_write_ovr g "----------------"
x_seek g 0
x_read g 16 -> d
abort
commit
tx
x_open data -> g
x_read g 16 -> d
commit
end
job j1
tx
x_open data -> f
x_seek f 4
x_write_ovr f "b"*4
commit
tx
x_open data -> g
x_write_ovr g "----------------"
x_seek g 0
x_read g 16 -> d
abort
commit
tx
x_open data -> g
x_read g 16 -> d
commit
end
job j2
tx
x_open data -> f
x_seek f 8
x_write_ovr f "c"*4
commit
tx
x_open data -> g
x_write_ovr g "----------------"
x_seek g 0
x_read g 16 -> d
abort
commit
tx
x_open data -> g
x_read g 16 -> d
commit
end
job j3
tx
x_open data -> f
x_seek f 12
x_write_ovr f "d"*4
commit
tx
x_open data -> g
x_write_ovr g "----------------"
x_seek g 0
x_read g 16 -> d
abort
commit
tx
x_open data -> g
x_read g 16 -> d
commit
end
