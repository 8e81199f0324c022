# Six jobs, each with a file of its own.
file f0 "0123456789"
file f1 "0123456789"
file f2 "0123456789"
file f3 "0123456789"
file f4 "0123456789"
file f5 "0123456789"
job j0
tx
x_open f0 -> f
x_read f 3 -> d
x_write_ovr f "ab"
commit
tx
x_seek f 0
x_read f 9 -> d
x_write_seq f $d "|"
x_len f -> n
commit
tx
x_write_ovr f "past the end of what is there"
require
x_close f
commit
end
job j1
tx
x_open f1 -> f
x_read f 3 -> d
x_write_ovr f "ab"
commit
tx
x_seek f 0
x_read f 9 -> d
x_write_seq f $d "|"
x_len f -> n
commit
tx
x_write_ovr f "past the end of what is there"
require
x_close f
commit
end
job j2
tx
x_open f2 -> f
x_read f 3 -> d
x_write_ovr f "ab"
commit
tx
x_seek f 0
x_read f 9 -> d
x_write_seq f $d "|"
x_len f -> n
commit
tx
x_write_ovr f "past the end of what is there"
require
x_close f
commit
end
job j3
tx
x_open f3 -> f
x_read f 3 -> d
x_write_ovr f "ab"
commit
tx
x_seek f 0
x_read f 9 -> d
x_write_seq f $d "|"
x_len f -> n
commit
tx
x_write_ovr f "past the end of what is there"
require
x_close f
commit
end
job j4
tx
x_open f4 -> f
x_read f 3 -> d
x_write_ovr f "ab"
commit
tx
x_seek f 0
x_read f 9 -> d
x_write_seq f $d "|"
x_len f -> n
commit
tx
x_write_ovr f "past the end of what is there"
require
x_close f
commit
end
job j5
tx
x_open f5 -> f
x_read f 3 -> d
x_write_ovr f "ab"
commit
tx
x_seek f 0
x_read f 9 -> d
x_write_seq f $d "|"
x_len f -> n
commit
tx
x_write_ovr f "past the end of what is there"
require
x_close f
commit
end
